//! The cases that documents 01 and 02 themselves give, with the answers they give.

use super::super::generate::rings::Ring;
use super::super::oracle;
use super::super::oracle::record::OLDER_RELEASES;
use super::super::oracle::trace::{self, Trace, Traces};
use super::{evaluation, following, listing, program, record, ring, Bench, Compared};

/// A packed trace, and its number of samples.
type Packed = (&'static [u8], u64);

/// A program tried: bytes, the traces of the ram and of the guard, verdict, passes; if it only loops the calls.
type Row = (
    &'static [u8],
    Packed,
    Option<Packed>,
    u8,
    u32,
    Result<u64, u32>,
);

const A: &[u8] = &[1, 1, 1, 2, 0, 0x22, 0x10];
const B: &[u8] = &[1, 1, 1, 2, 0, 0x80, 0x10];
const C: &[u8] = &[1, 1, 1, 2, 0, 0x20, 0x10];
const D: &[u8] = &[
    1, 1, 1, 0x0B, 0, 0x23, 0x22, 0x10, 1, 0x23, 0x20, 0x10, 0x80, 0x21, 0x10, 0,
];
const E: &[u8] = &[2, 1, 1, 1, 0, 0x81, 0, 0, 1, 0, 1];
const F: &[u8] = &[2, 1, 1, 3, 0, 0x81, 0x80, 0x10, 1, 0, 1, 0, 1];

/// The guard's list is empty.
const GUARD_NULL: &[u8] = &[0x81, 2, 3, 2, 2, 0, 0x22, 0x11];
/// The first sample of the guard where the ram's list is empty, else of the ram.
const EITHER: &[u8] = &[0x81, 2, 3, 2, 6, 0, 0x20, 0x23, 0x22, 0x10, 0x11, 0x10];
/// The ram may not move while the guard is open.
const PRESS: &[u8] = &[
    0x81, 2, 3, 2, 21, 0, 0x23, 0x22, 0x10, 1, 0x23, 0x20, 0x10, 0x23, 0x20, 0x11, 0x80, 0x21,
    0x10, 0x21, 0x11, 0, 0x80, 0x21, 0x10, 0x21, 0x11,
];

/// Main calls itself on the tl of its list, and over two contacts on the same lists.
const TO_THE_END: &[u8] = &[1, 1, 1, 3, 0, 0x80, 0x21, 0x10];
const GUARD_ITSELF: &[u8] = &[0x81, 2, 3, 2, 3, 0, 0x80, 0x10, 0x11];

const NONE: Packed = (&[], 0);
const ROWS: [Row; 15] = [
    (A, (&[5], 3), None, 1, 2, Ok(0)),
    (B, (&[5], 3), None, 0, 1, Ok(4)),
    (C, NONE, None, 3, 2, Ok(0)),
    (D, (&[7], 3), None, 2, 2, Ok(3)),
    (E, NONE, None, 2, 3, Ok(1)),
    (F, NONE, None, 0, 2, Err(24)),
    (TO_THE_END, (&[5], 3), None, 4, 2, Ok(3)),
    (GUARD_NULL, (&[5], 3), Some(NONE), 2, 2, Ok(0)),
    (GUARD_NULL, NONE, Some((&[5], 3)), 1, 2, Ok(0)),
    (EITHER, NONE, Some((&[1], 1)), 2, 2, Ok(0)),
    (EITHER, (&[2], 2), Some((&[1], 1)), 1, 2, Ok(0)),
    (PRESS, (&[6], 4), Some((&[7], 4)), 2, 2, Ok(4)),
    (PRESS, (&[6], 4), Some((&[5], 4)), 1, 2, Ok(1)),
    (PRESS, (&[6], 4), Some((&[1], 1)), 3, 2, Ok(1)),
    (GUARD_ITSELF, (&[5], 3), Some((&[1], 1)), 0, 1, Ok(8)),
];

/// Programs that are refused, and their numbers: those of document 01, those that follow the sort, and the sorts of
/// kind fault.
const REFUSED: [(&[u8], u32); 26] = [
    (&[1, 1, 1, 2, 0, 0x22], 9),
    (&[1, 1, 1, 2, 0, 0x24, 0x10], 14),
    (&[0x80, 2, 3, 2, 1, 0, 1], 6),
    (&[0xA1, 2, 3, 2, 1, 0, 1], 6),
    (&[0x81, 2, 3, 2, 1], 7),
    (&[0x82, 2, 3, 2, 1, 0, 1, 1, 0, 1, 1, 0, 1], 8),
    (&[0x82, 2, 3, 2, 1, 0, 1, 0, 0x10, 0x30, 1, 0, 2], 8),
    (&[0x81, 2, 3, 3, 1, 0, 1], 11),
    (&[0x81, 2, 3, 0, 1, 0, 1], 11),
    (&[1, 1, 1, 2, 0, 0x22, 3], 15),
    (&[0x81, 2, 3, 2, 1, 0, 3], 16),
    (&[0x81, 2, 3, 2, 3, 0, 0x80, 0x11, 0x10], 26),
    // a whole body, and a branch of it
    (&[1, 1, 1, 1, 0, 0x10], 16),
    (&[1, 1, 1, 4, 0, 0x23, 0, 0, 0x10], 16),
    // an operand of hd, tl and null, and a condition
    (&[1, 1, 1, 2, 0, 0x20, 0], 25),
    (&[1, 1, 1, 3, 0, 0x22, 0x21, 0], 25),
    (&[1, 1, 1, 2, 0, 0x22, 0], 25),
    (&[1, 1, 1, 4, 0, 0x23, 0x10, 0, 0], 25),
    // an argument, and a tl's operand in an argument
    (&[1, 1, 1, 2, 0, 0x80, 0], 26),
    (&[1, 1, 1, 3, 0, 0x80, 0x21, 0], 25),
    (&[0x81, 2, 3, 2, 4, 0, 0x80, 0x21, 0x11, 0x11], 25),
    // a branch in an argument, in an operand and in a condition
    (&[1, 1, 1, 5, 0, 0x80, 0x23, 0, 0x10, 0], 26),
    (&[1, 1, 1, 5, 0, 0x22, 0x23, 0, 0x10, 0], 25),
    (&[1, 1, 1, 7, 0, 0x23, 0x23, 0, 0, 0x10, 0, 0], 25),
    // an argument in a condition in an operand, and a tl for a Bool in an argument
    (&[1, 1, 1, 6, 0, 0x22, 0x23, 0x80, 0, 0x10, 0x10], 26),
    (&[2, 1, 1, 3, 0, 0x81, 0x21, 0x10, 1, 0, 1, 0, 0x10], 26),
];

/// The archive that is listed: A on 101, in format 1.
const ARCHIVE: &[u8] = &[
    1, 1, 1, 2, 0, 0x22, 0x10, 5, 0, 0, 0, 0, 0, 0, 0, 0, 1, 2, 0, 0, 0, 0x15, 0, 0x0E, 0, 3, 0, 1,
    0x52,
];
const LISTING: &str = "1 29 3 no agrees\nend 1\n";

/// A on 101, in format 2.
const RECORDED: &[u8] = &[
    1, 1, 1, 2, 0, 0x22, 0x10, 5, 1, 2, 0, 0, 0, 0x0D, 0, 6, 0, 3, 0, 2, 0x52,
];

/// The guard's list is empty, on 101 and none, in format 3.
const GUARDED: &[u8] = &[
    0x81, 2, 3, 2, 2, 0, 0x22, 0x11, 5, 2, 2, 0, 0, 0, 0x0E, 0, 6, 0, 3, 0, 0, 0, 3, 0x52,
];

/// All of them, in the first round.
pub fn run(bench: &mut Bench) -> Compared {
    if bench.round > 0 {
        return Ok(());
    }
    for row in ROWS {
        tried(bench, row)?;
    }
    for (program, number) in REFUSED {
        refused(bench, program, number)?;
    }
    cells(bench)?;
    long_loop(bench)?;
    call_elsewhere(bench)?;
    sorts(bench)?;
    both_traces(bench)?;
    rings(bench)?;
    padding_set(bench)?;
    recorded(bench)?;
    labels(bench)?;
    formats(bench)?;
    archives(bench)
}

/// Says so if the oracle itself leaves the paper.
fn stated<T: PartialEq + std::fmt::Debug>(have: T, want: T) -> Compared {
    match have == want {
        true => Ok(()),
        false => Err(format!("oracle gives {have:?}, the documents {want:?}")),
    }
}

/// Lent traces.
fn traces(ram: (&[u8], u64), guard: Option<(&[u8], u64)>) -> Traces {
    let trace = |(bytes, n): (&[u8], u64)| Trace {
        bytes: bytes.to_vec(),
        n,
    };
    Traces {
        ram: trace(ram),
        guard: guard.map(trace),
    }
}

/// A row that is evaluated, and followed if it only loops.
fn tried(bench: &mut Bench, row: Row) -> Compared {
    let (program, ram, guard, verdict, passes, calls) = row;
    let traces = traces(ram, guard);
    let answer = oracle::evaluate(program, &traces, &mut [0; 100]);
    stated(
        answer.map(|it| (it.verdict, it.passes)),
        Ok((verdict, passes)),
    )?;
    program::compare(bench, program)?;
    evaluation::compare(bench, program, &traces, vec![7; 100])?;
    followed(bench, program, &traces, calls.map(|calls| (verdict, calls)))
}

/// What following must answer: the verdict and the calls, or a number.
fn followed(
    bench: &mut Bench,
    program: &[u8],
    traces: &Traces,
    answer: Result<(u8, u64), u32>,
) -> Compared {
    let followed = oracle::follow(program, traces);
    stated(followed.map(|it| (it.verdict, it.calls)), answer)?;
    following::compare(bench, program, traces)
}

/// A program that is refused.
fn refused(bench: &mut Bench, bytes: &[u8], number: u32) -> Compared {
    stated(oracle::program::check(bytes).map(|_| ()), Err(number))?;
    program::compare(bench, bytes)
}

/// Following, an evaluation and a record that are refused.
fn not_evaluated(bench: &mut Bench, program: &[u8], traces: Traces, number: u32) -> Compared {
    let answer = oracle::evaluate(program, &traces, &mut [9; 16]);
    stated(answer.map(|_| ()), Err(number))?;
    evaluation::compare(bench, program, &traces, vec![9; 16])?;
    followed(bench, program, &traces, Err(number))?;
    let order = record::Order {
        program: program.to_vec(),
        traces,
        table: vec![9; 16],
        out: vec![9; 64],
    };
    record::compare_write(bench, order)
}

/// A on 101 with 3 cells and with 4.
fn cells(bench: &mut Bench) -> Compared {
    let traces = traces((&[5], 3), None);
    let few = oracle::evaluate(A, &traces, &mut [9; 3]);
    stated(few.map(|_| ()), Err(21))?;
    evaluation::compare(bench, A, &traces, vec![9; 3])?;
    evaluation::compare(bench, A, &traces, vec![9; 4])
}

/// D on no sample, on one and on as many as there can be, all ones: a call for each.
fn long_loop(bench: &mut Bench) -> Compared {
    for n in [0, 1, 4_095] {
        let ones = trace::pack(&vec![true; n]);
        let traces = traces((&ones, n as u64), None);
        followed(bench, D, &traces, Ok((2, n as u64)))?;
    }
    Ok(())
}

/// 24 goes before 20, 23 and 21: F, with a function of three lists as well, on such traces.
fn call_elsewhere(bench: &mut Bench) -> Compared {
    let zeros = [0; 512];
    let many = [&[3][..], &F[1..], &[3, 7, 1, 0, 0]].concat();
    for trace in [(&[5, 0][..], 3), (&[13][..], 3), (&zeros[..], 4_095)] {
        followed(bench, &many, &traces(trace, None), Err(24))?;
    }
    let loops = [&[3][..], &E[1..], &[3, 7, 1, 0, 0]].concat();
    followed(bench, &loops, &traces((&zeros, 4_095), None), Err(21))
}

/// Programs with traces of the other sort, and in formats of the other sort.
fn sorts(bench: &mut Bench) -> Compared {
    not_evaluated(bench, A, traces((&[5], 3), Some(NONE)), 6)?;
    not_evaluated(bench, GUARD_NULL, traces((&[5], 3), None), 6)?;
    // a byte more or less in the program only moves its first byte
    changed(bench, RECORDED, 0, 0x81, 6)?;
    changed(bench, ARCHIVE, 0, 0x81, 6)?;
    changed(bench, GUARDED, 0, 1, 6)
}

/// 20 of either trace goes before 23 of either.
fn both_traces(bench: &mut Bench) -> Compared {
    let sound: Packed = (&[5], 3);
    let padding: Packed = (&[13], 3);
    let long: Packed = (&[5, 0], 3);
    for (ram, guard, number) in [
        (padding, sound, 23),
        (sound, padding, 23),
        (padding, padding, 23),
        (long, sound, 20),
        (sound, long, 20),
        (long, padding, 20),
        (padding, long, 20),
    ] {
        not_evaluated(bench, GUARD_NULL, traces(ram, Some(guard)), number)?;
    }
    Ok(())
}

/// Each bit above the last sample of A's trace alone, lent and in a record.
fn padding_set(bench: &mut Bench) -> Compared {
    for bit in 3..8 {
        let trace = [5 | 1 << bit];
        not_evaluated(bench, A, traces((&trace, 3), None), 23)?;
        for (record, at) in [(ARCHIVE, 7), (RECORDED, 7), (GUARDED, 8)] {
            changed(bench, record, at, 5 | 1 << bit, 23)?;
        }
    }
    Ok(())
}

/// A record with one byte changed, and the number it is refused by.
fn changed(bench: &mut Bench, record: &[u8], at: usize, byte: u8, number: u32) -> Compared {
    let mut bytes = record.to_vec();
    bytes[at] = byte;
    stated(oracle::record::read(&bytes).map(|_| ()), Err(number))?;
    record::compare_read(bench, &bytes)?;
    record::compare_check(bench, &bytes, vec![9; 5])
}

/// Ring lengths at the limits.
fn rings(bench: &mut Bench) -> Compared {
    for (length, number) in [(0, 18), (1, 0), (4_095, 0), (4_096, 18)] {
        let mut new = Ring {
            slots: vec![3; length],
            state: [0, 0],
        };
        let mut copy = vec![3; length];
        let added = oracle::ring::add(&mut copy, &mut [0, 0], 1);
        stated(super::number(&added), number)?;
        ring::compare_trace(bench, &new, vec![8; 512])?;
        ring::compare_add(bench, &mut new, 2)?;
        ring::compare_trace(bench, &new, vec![8; 512])?;
    }
    Ok(())
}

/// A on 101 is recorded in format 2, which a release without request 02 refuses by 2; on the traces of two contacts
/// a record is of format 3, which a release without request 05 refuses by 2 too.
fn recorded(bench: &mut Bench) -> Compared {
    let on_one = traces((&[5], 3), None);
    let on_two = traces((&[5], 3), Some(NONE));
    for (program, traces, record, refusing) in [
        (A, on_one, RECORDED, 1),
        (GUARD_NULL, on_two, GUARDED, OLDER_RELEASES.len()),
    ] {
        let mut out = vec![0; record.len()];
        let written = oracle::record::write(program, &traces, &mut [0; 4], &mut out);
        stated(written.map(|(length, _)| length), Ok(record.len()))?;
        stated(&out[..], record)?;
        for formats in &OLDER_RELEASES[..refusing] {
            let before = oracle::record::read_formats(formats, record);
            stated(before.map(|_| ()), Err(2))?;
        }
        for room in [record.len() - 1, record.len()] {
            let order = record::Order {
                program: program.to_vec(),
                traces: traces.clone(),
                table: vec![9; 5],
                out: vec![9; room],
            };
            record::compare_write(bench, order)?;
        }
    }
    Ok(())
}

/// The parts of the records: a label of zeros, none, and none with a guard trace of no byte.
fn labels(bench: &mut Bench) -> Compared {
    let labelled = [0, 7, 7, 1, 3, 8, 1, 2, 0, 1, 8, 0, 0, 0];
    let unlabelled = [0, 7, 7, 1, 3, 0, 1, 2, 0, 2, 0, 0, 0, 0];
    let guarded = [0, 8, 8, 1, 3, 0, 2, 2, 0, 3, 0, 9, 0, 0];
    for (record, parts) in [
        (ARCHIVE, labelled),
        (RECORDED, unlabelled),
        (GUARDED, guarded),
    ] {
        let read = oracle::record::read(record);
        stated(read.map(|it| it.numbers()), Ok(parts))?;
        record::compare_read(bench, record)?;
        record::compare_check(bench, record, vec![9; 5])?;
    }
    Ok(())
}

/// Each record with a format byte that is not its own, and the ends of one of format 3: 1 asks ten bytes of that.
fn formats(bench: &mut Bench) -> Compared {
    for (record, others) in [(ARCHIVE, [2, 3]), (RECORDED, [1, 3]), (GUARDED, [1, 2])] {
        let at = record.len() - 2;
        for other in others {
            changed(bench, record, at, other, 3)?;
        }
        changed(bench, record, at, 0, 2)?;
        changed(bench, record, at, 4, 2)?;
    }
    for (length, number) in [(7, 1), (8, 1), (9, 1), (10, 3)] {
        let bytes = &GUARDED[GUARDED.len() - length..];
        stated(oracle::record::read(bytes).map(|_| ()), Err(number))?;
        record::compare_read(bench, bytes)?;
        record::compare_check(bench, bytes, vec![9; 5])?;
    }
    Ok(())
}

/// The archive that is listed, the same contents in format 2, a record of format 3, all end to end, and no record.
fn archives(bench: &mut Bench) -> Compared {
    let archives = [
        (ARCHIVE.to_vec(), LISTING),
        (RECORDED.to_vec(), "1 21 3 no agrees\nend 1\n"),
        (GUARDED.to_vec(), "1 24 3 0 yes agrees\nend 1\n"),
        (
            [ARCHIVE, RECORDED, GUARDED].concat(),
            "1 24 3 0 yes agrees\n2 21 3 no agrees\n3 29 3 no agrees\nend 3\n",
        ),
        (
            [GUARDED, RECORDED, ARCHIVE].concat(),
            "1 29 3 no agrees\n2 21 3 no agrees\n3 24 3 0 yes agrees\nend 3\n",
        ),
        (Vec::new(), "end 0\n"),
    ];
    for (archive, text) in archives {
        listed(bench, &archive, text)?;
    }
    Ok(())
}

/// An archive that is walked and listed.
fn listed(bench: &mut Bench, archive: &[u8], text: &str) -> Compared {
    stated(&*oracle::listing::text(archive), text)?;
    let mut rest = archive;
    while let Some(before) = record::compare_read(bench, rest)? {
        record::compare_check(bench, rest, vec![9; 5])?;
        rest = &rest[..before];
    }
    match bench.listing {
        Some(path) => listing::compare(bench, path, archive),
        None => Ok(()),
    }
}
