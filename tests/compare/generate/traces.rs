//! Traces and tables for a program.

use super::super::oracle::program::{self, Contacts};
use super::super::oracle::trace::{self, PerContact, Samples, Trace, Traces};
use super::super::oracle::{search, MOST_CELLS};
use super::super::random::Random;
use super::programs;

/// How much work a case may be.
struct Limits {
    cells: u64,
    visits: u64,
}

impl Limits {
    /// Mostly small, over two contacts half as large.
    fn any(random: &mut Random, contacts: Contacts) -> Self {
        let (cells, visits) = match random.below(400) {
            0 => (400_000, 8_000_000),
            1..=12 => (20_000, 4_000_000),
            13..=100 => (5_000, 400_000),
            _ => (600, 100_000),
        };
        let parts = contacts.contacts().len() as u64;
        Limits {
            cells: cells / parts,
            visits: visits / parts,
        }
    }
}

/// A number of samples, mostly small.
fn count(random: &mut Random) -> usize {
    match random.below(20) {
        0 => 0,
        1..=5 => random.between(1, 4),
        6..=9 => random.between(5, 20),
        10 => 8 * random.between(1, 40),
        11..=13 => random.between(20, 100),
        14..=17 => random.between(100, 600),
        18 => random.between(600, 4_095),
        _ => random.pick(&[255, 256, 4_087, 4_088, 4_089, 4_094, 4_095]),
    }
}

/// Numbers of samples, mostly small. Of two contacts one may have none, or both the same number.
fn counts(random: &mut Random, contacts: Contacts) -> PerContact<usize> {
    let ram = count(random);
    if contacts == Contacts::One {
        return PerContact { ram, guard: None };
    }
    let (ram, guard) = match random.below(12) {
        0 => (0, count(random)),
        1 => (ram, 0),
        2..=5 => (ram, ram),
        _ => (ram, count(random)),
    };
    PerContact {
        ram,
        guard: Some(guard),
    }
}

/// So many samples of each contact.
pub fn samples(random: &mut Random, counts: &PerContact<usize>) -> Samples {
    Samples {
        ram: contact(random, counts.ram),
        guard: counts.guard.map(|m| contact(random, m)),
    }
}

/// So many samples of a contact.
fn contact(random: &mut Random, n: usize) -> Vec<bool> {
    let ones = random.pick(&[0, 1, 4, 4, 4, 7, 8]);
    (0..n).map(|_| random.below(8) < ones).collect()
}

/// Samples for a program, of the contacts that it speaks of, few enough that its table and passes stay within limits.
pub fn fitting(random: &mut Random, program: &[u8]) -> Samples {
    let contacts = programs::contacts(program);
    let counts = counts(random, contacts);
    let mut samples = samples(random, &counts);
    let Ok(functions) = program::check(program) else {
        return samples;
    };
    let limits = Limits::any(random, contacts);
    shorten(random, &mut samples, |it| heavy(&functions, it, &limits));
    samples
}

/// Drops samples as long as there are too many.
fn shorten(random: &mut Random, samples: &mut Samples, too_many: impl Fn(&Samples) -> bool) {
    while too_many(samples) && samples.each().any(|it| !it.is_empty()) {
        let shorter = match &mut samples.guard {
            Some(guard) if !guard.is_empty() && (samples.ram.is_empty() || random.one_in(2)) => {
                guard
            }
            _ => &mut samples.ram,
        };
        let drop = 1 + shorter.len() / 4;
        shorter.truncate(shorter.len() - drop);
    }
}

/// Samples for following a program: mostly few, else as many as more configurations allow, or so many that they exceed the
/// limit if the program has lists enough.
pub fn followed(random: &mut Random, program: &[u8]) -> Samples {
    let contacts = programs::contacts(program);
    let (allowed, beyond) = match random.below(60) {
        0 => (400_000, false),
        1..=10 => (30_000, false),
        11..=13 => (30_000, true),
        _ => (600, false),
    };
    let counts = counts(random, contacts);
    let mut samples = match beyond {
        true => most(random, contacts),
        false => samples(random, &counts),
    };
    if let Ok(functions) = program::check(program) {
        shorten(random, &mut samples, |it| {
            let needed = search::cells_needed(&functions, it);
            needed > allowed && !(beyond && needed > MOST_CELLS)
        });
    }
    samples
}

/// Whether evaluating would be beyond the limits.
fn heavy(functions: &[program::Function], samples: &Samples, limits: &Limits) -> bool {
    search::cells_needed(functions, samples) > limits.cells
        || search::evaluate(functions, samples).visits > limits.visits
}

/// The most samples of each contact. Of two, no program but one of main alone has cells for them.
pub fn most(random: &mut Random, contacts: Contacts) -> Samples {
    let counts = PerContact {
        ram: 4_095,
        guard: (contacts == Contacts::Two).then_some(4_095),
    };
    samples(random, &counts)
}

/// Lent traces for a program as the cases take them: sometimes damaged, rarely for a program of the other sort.
pub fn any(random: &mut Random, program: &[u8], damaged_in: usize) -> Traces {
    let mut samples = fitting(random, program);
    if samples.guard.is_some() && random.one_in(60) {
        samples = most(random, Contacts::Two);
    }
    lent(random, &samples, damaged_in)
}

/// Lent traces of samples: sometimes damaged, rarely for a program of the other sort.
pub fn lent(random: &mut Random, samples: &Samples, damaged_in: usize) -> Traces {
    let mut traces = trace::packed(samples);
    if random.one_in(damaged_in) {
        damage(random, &mut traces);
    }
    if random.one_in(24) {
        other_sort(random, &mut traces);
    }
    traces
}

/// Takes the guard's trace away, or adds one.
fn other_sort(random: &mut Random, traces: &mut Traces) {
    traces.guard = match traces.guard {
        Some(_) => None,
        None => {
            let n = random.pick(&[0, 1, 8, 13]);
            let samples = contact(random, n);
            Some(Trace {
                bytes: trace::pack(&samples),
                n: n as u64,
            })
        }
    };
}

/// Sets a bit above the last of n samples, or some, if their last byte has any.
pub fn set_padding(random: &mut Random, bytes: &mut [u8], n: u64) {
    let live = (n % 8) as usize;
    if let (1.., Some(last)) = (live, bytes.last_mut()) {
        *last |= 1 << random.between(live, 7);
        if random.one_in(2) {
            *last |= random.byte() << live;
        }
    }
}

/// Damage to one of the traces, or to both.
fn damage(random: &mut Random, traces: &mut Traces) {
    let Some(guard) = &mut traces.guard else {
        return damage_one(random, &mut traces.ram);
    };
    let which = random.below(4);
    if which != 1 {
        damage_one(random, &mut traces.ram);
    }
    if which != 0 {
        damage_one(random, guard);
    }
}

/// Padding bits set, or a wrong length or number of samples, or both; sometimes by chance still a right trace.
fn damage_one(random: &mut Random, trace: &mut Trace) {
    if random.one_in(2) {
        set_padding(random, &mut trace.bytes, trace.n);
        if !random.one_in(4) {
            return;
        }
    }
    match random.below(7) {
        0 => trace.bytes.push(random.byte()),
        1 => {
            trace.bytes.pop();
        }
        2 => trace.n += 8,
        3 => {
            trace.n = trace
                .n
                .wrapping_add(random.pick(&[1, 7, u64::MAX, u64::MAX - 7]))
        }
        4 => *trace = too_long(random),
        5 => trace.n = u64::MAX - random.below(9) as u64,
        _ => trace.n |= 1 << random.between(12, 63),
    }
}

/// A trace that would fit its number of samples, were it not above 4,095.
fn too_long(random: &mut Random) -> Trace {
    let n = random.pick(&[4_096, 4_097, 4_104, 5_000, 65_536]);
    Trace {
        bytes: random.bytes(trace::bytes_for(n)),
        n: n as u64,
    }
}

/// A table for a program on traces: too short, exact or longer, filled with garbage.
pub fn table(random: &mut Random, program: &[u8], traces: &Traces) -> Vec<u16> {
    let samples = traces.map(|trace| vec![false; trace.n.min(4_095) as usize]);
    let needed = match program::check_for(traces.contacts(), program) {
        Ok(functions) => search::cells_needed(&functions, &samples),
        Err(_) => random.below(30) as u64,
    };
    if needed > 400_000 {
        let length = random.between(0, 1_000);
        return garbage(random, length);
    }
    let needed = needed as usize;
    let length = match random.below(16) {
        0 => needed.saturating_sub(1),
        1 => random.between(0, needed),
        2..=7 => needed,
        8 => needed + 1,
        _ => needed + random.below(60),
    };
    garbage(random, length)
}

/// A table with so many cells or some more, filled with garbage.
pub fn sufficient(random: &mut Random, needed: usize) -> Vec<u16> {
    let more = random.pick(&[0, 0, 1, 40]);
    garbage(random, needed + more)
}

/// Cells before use: anything, likely outcomes, all the same.
pub fn garbage(random: &mut Random, length: usize) -> Vec<u16> {
    let plain = random.pick(&[0, 1, 2, 3, 4, 5, 0xFFFF]);
    match random.below(3) {
        0 => vec![plain; length],
        1 => (0..length).map(|_| random.below(12) as u16).collect(),
        _ => (0..length).map(|_| random.word() as u16).collect(),
    }
}
