//! The library's C interface, and calls of it on lent memory.

use super::lent::Lent;
use super::oracle::trace::PerContact;

extern "C" {
    fn sik_ring_add(slots: *mut u8, slots_len: usize, state: *mut u64, sample: u8) -> u32;
    fn sik_ring_trace(
        slots: *const u8,
        slots_len: usize,
        state: *const u64,
        out: *mut u8,
        out_len: usize,
        samples: *mut u64,
    ) -> u32;
    fn sik_check_program(program: *const u8, program_len: usize) -> u32;
    fn sik_evaluate(
        program: *const u8,
        program_len: usize,
        trace: *const u8,
        trace_len: usize,
        n: u64,
        table: *mut u16,
        table_len: usize,
        answer: *mut u64,
    ) -> u32;
    fn sik_write_record(
        program: *const u8,
        program_len: usize,
        trace: *const u8,
        trace_len: usize,
        n: u64,
        table: *mut u16,
        table_len: usize,
        out: *mut u8,
        out_len: usize,
        answer: *mut u64,
    ) -> u32;
    fn sik_evaluate_two(
        program: *const u8,
        program_len: usize,
        ram: *const u8,
        ram_len: usize,
        n: u64,
        guard: *const u8,
        guard_len: usize,
        m: u64,
        table: *mut u16,
        table_len: usize,
        answer: *mut u64,
    ) -> u32;
    fn sik_write_record_two(
        program: *const u8,
        program_len: usize,
        ram: *const u8,
        ram_len: usize,
        n: u64,
        guard: *const u8,
        guard_len: usize,
        m: u64,
        table: *mut u16,
        table_len: usize,
        out: *mut u8,
        out_len: usize,
        answer: *mut u64,
    ) -> u32;
    fn sik_follow(
        program: *const u8,
        program_len: usize,
        trace: *const u8,
        trace_len: usize,
        n: u64,
        answer: *mut u64,
    ) -> u32;
    fn sik_follow_two(
        program: *const u8,
        program_len: usize,
        ram: *const u8,
        ram_len: usize,
        n: u64,
        guard: *const u8,
        guard_len: usize,
        m: u64,
        answer: *mut u64,
    ) -> u32;
    fn sik_read_record(bytes: *const u8, bytes_len: usize, parts: *mut u64) -> u32;
    fn sik_check_record(
        bytes: *const u8,
        bytes_len: usize,
        table: *mut u16,
        table_len: usize,
        answer: *mut u64,
    ) -> u32;
}

/// Adds a sample; the state has 2 words.
pub fn ring_add(slots: &mut Lent<u8>, state: &mut Lent<u64>, sample: u8) -> u32 {
    assert_eq!(state.len(), 2);
    let length = slots.len();
    unsafe { sik_ring_add(slots.pointer_mut(), length, state.pointer_mut(), sample) }
}

/// Takes a trace; the state has 2 words, the answer 1.
pub fn ring_trace(
    slots: &Lent<u8>,
    state: &Lent<u64>,
    out: &mut Lent<u8>,
    samples: &mut Lent<u64>,
) -> u32 {
    assert_eq!((state.len(), samples.len()), (2, 1));
    let length = out.len();
    unsafe {
        sik_ring_trace(
            slots.pointer(),
            slots.len(),
            state.pointer(),
            out.pointer_mut(),
            length,
            samples.pointer_mut(),
        )
    }
}

/// Checks a program.
pub fn check_program(program: &Lent<u8>) -> u32 {
    unsafe { sik_check_program(program.pointer(), program.len()) }
}

/// A lent trace: its bytes, and how many samples they shall hold.
pub type LentTrace = (Lent<u8>, u64);

/// Evaluates on the traces of one contact or of two; the answer has 2 words.
pub fn evaluate(
    program: &Lent<u8>,
    traces: &PerContact<LentTrace>,
    table: &mut Lent<u16>,
    answer: &mut Lent<u64>,
) -> u32 {
    assert_eq!(answer.len(), 2);
    let length = table.len();
    let (ram, n) = &traces.ram;
    let Some((guard, m)) = &traces.guard else {
        return unsafe {
            sik_evaluate(
                program.pointer(),
                program.len(),
                ram.pointer(),
                ram.len(),
                *n,
                table.pointer_mut(),
                length,
                answer.pointer_mut(),
            )
        };
    };
    unsafe {
        sik_evaluate_two(
            program.pointer(),
            program.len(),
            ram.pointer(),
            ram.len(),
            *n,
            guard.pointer(),
            guard.len(),
            *m,
            table.pointer_mut(),
            length,
            answer.pointer_mut(),
        )
    }
}

/// Follows the calls on the traces of one contact or of two; the answer has 2 words.
pub fn follow(program: &Lent<u8>, traces: &PerContact<LentTrace>, answer: &mut Lent<u64>) -> u32 {
    assert_eq!(answer.len(), 2);
    let (ram, n) = &traces.ram;
    let Some((guard, m)) = &traces.guard else {
        return unsafe {
            sik_follow(
                program.pointer(),
                program.len(),
                ram.pointer(),
                ram.len(),
                *n,
                answer.pointer_mut(),
            )
        };
    };
    unsafe {
        sik_follow_two(
            program.pointer(),
            program.len(),
            ram.pointer(),
            ram.len(),
            *n,
            guard.pointer(),
            guard.len(),
            *m,
            answer.pointer_mut(),
        )
    }
}

/// Writes a record on the traces of one contact or of two; the answer has 3 words.
pub fn write_record(
    program: &Lent<u8>,
    traces: &PerContact<LentTrace>,
    table: &mut Lent<u16>,
    out: &mut Lent<u8>,
    answer: &mut Lent<u64>,
) -> u32 {
    assert_eq!(answer.len(), 3);
    let (cells, room) = (table.len(), out.len());
    let (ram, n) = &traces.ram;
    let Some((guard, m)) = &traces.guard else {
        return unsafe {
            sik_write_record(
                program.pointer(),
                program.len(),
                ram.pointer(),
                ram.len(),
                *n,
                table.pointer_mut(),
                cells,
                out.pointer_mut(),
                room,
                answer.pointer_mut(),
            )
        };
    };
    unsafe {
        sik_write_record_two(
            program.pointer(),
            program.len(),
            ram.pointer(),
            ram.len(),
            *n,
            guard.pointer(),
            guard.len(),
            *m,
            table.pointer_mut(),
            cells,
            out.pointer_mut(),
            room,
            answer.pointer_mut(),
        )
    }
}

/// Reads the last record; the parts have 14 words.
pub fn read_record(bytes: &Lent<u8>, parts: &mut Lent<u64>) -> u32 {
    assert_eq!(parts.len(), 14);
    unsafe { sik_read_record(bytes.pointer(), bytes.len(), parts.pointer_mut()) }
}

/// Checks the last record; the answer has 1 word.
pub fn check_record(bytes: &Lent<u8>, table: &mut Lent<u16>, answer: &mut Lent<u64>) -> u32 {
    assert_eq!(answer.len(), 1);
    let length = table.len();
    unsafe {
        sik_check_record(
            bytes.pointer(),
            bytes.len(),
            table.pointer_mut(),
            length,
            answer.pointer_mut(),
        )
    }
}
