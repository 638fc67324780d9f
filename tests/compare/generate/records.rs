//! Records and archives of all formats, sound and damaged.

use super::super::oracle::program::{self, Contacts};
use super::super::oracle::record::Content;
use super::super::oracle::search;
use super::super::oracle::trace::{self, PerContact, Samples, Trace};
use super::super::random::Random;
use super::{programs, traces};

/// The content of a record of any sort.
pub fn content(random: &mut Random, damaged_in: usize) -> Content {
    let contacts = random.pick(&Contacts::ALL);
    content_over(random, contacts, damaged_in)
}

/// A record's content; verdict and passes are mostly the right ones, and the program that of the sort of the traces.
fn content_over(random: &mut Random, contacts: Contacts, damaged_in: usize) -> Content {
    let mut program = programs::any(random, contacts, damaged_in);
    let mut samples = traces::fitting(random, &program);
    let (mut verdict, mut passes) = worked_out(&program, &samples);
    if random.one_in(4 * damaged_in) {
        program = other_sort(random, samples.contacts());
    }
    if samples.guard.is_some() && random.one_in(60) {
        samples = traces::most(random, Contacts::Two);
    }
    if random.one_in(4) {
        verdict = random.below(5) as u8;
    }
    if random.one_in(4) {
        passes = random.pick(&[1, 2, 3, passes + 1, passes + 256, passes + 65_536, u32::MAX]);
    }
    let label = label(random, samples.contacts());
    Content {
        program,
        traces: trace::packed(&samples),
        label,
        verdict,
        passes,
    }
}

/// An accepted program of the other sort.
fn other_sort(random: &mut Random, contacts: Contacts) -> Vec<u8> {
    let other = match contacts {
        Contacts::One => Contacts::Two,
        Contacts::Two => Contacts::One,
    };
    programs::accepted(random, other)
}

/// A sound record's content.
pub fn sound(random: &mut Random, contacts: Contacts) -> Content {
    content_over(random, contacts, 1_000_000)
}

/// A site label, sometimes of zeros, or none; of two contacts none.
fn label(random: &mut Random, contacts: Contacts) -> Option<[u8; 8]> {
    match random.below(6) {
        _ if contacts == Contacts::Two => None,
        0 => Some([0; 8]),
        1 | 2 => Some(random.word().to_le_bytes()),
        _ => None,
    }
}

/// Verdict and passes of a program; for a refused one, any.
fn worked_out(program: &[u8], samples: &Samples) -> (u8, u32) {
    match program::check(program) {
        Ok(functions) => {
            let evaluation = search::evaluate(&functions, samples);
            (evaluation.verdict, evaluation.passes)
        }
        Err(_) => (1, 2),
    }
}

/// An archive of some records, damaged or not.
pub fn archive(random: &mut Random) -> Vec<u8> {
    if random.one_in(20) {
        return stray(random);
    }
    let mut archive = Vec::new();
    if random.one_in(6) {
        let stray = random.between(1, 30);
        archive.extend(random.bytes(stray));
    }
    if random.one_in(60) {
        let stray = random.between(65_000, 66_000);
        archive.extend(random.bytes(stray));
    }
    for _ in 0..random.pick(&[1, 1, 2, 3, 5]) {
        archive.extend(piece(random));
    }
    if random.one_in(6) {
        archive.extend(all_formats(random));
    }
    archive
}

/// A few bytes, or the last of a record: none to some more than a trailer has.
fn stray(random: &mut Random) -> Vec<u8> {
    if random.one_in(2) {
        let length = random.between(0, 40);
        return random.bytes(length);
    }
    let contacts = random.pick(&Contacts::ALL);
    let bytes = sound(random, contacts).bytes();
    let length = random.between(0, 12);
    bytes[bytes.len() - length..].to_vec()
}

/// Sound records end to end: over one contact with a label, with one of zeros and with none, and one over two contacts.
fn all_formats(random: &mut Random) -> Vec<u8> {
    let [one, two] = Contacts::ALL.map(|contacts| sound(random, contacts));
    let labels = [Some([0; 8]), Some(random.word().to_le_bytes()), None];
    let labelled = labels.map(|label| Content {
        label,
        ..one.clone()
    });
    let mut contents = [labelled.to_vec(), vec![two]].concat();
    random.shuffle(&mut contents);
    contents.iter().flat_map(Content::bytes).collect()
}

/// One record of an archive, sometimes damaged.
fn piece(random: &mut Random) -> Vec<u8> {
    let mut content = content(random, 6);
    if random.one_in(3) {
        return damaged(random, &mut content);
    }
    content.bytes()
}

/// A record with damage to its content, its trailer or its length.
fn damaged(random: &mut Random, content: &mut Content) -> Vec<u8> {
    if random.one_in(4) {
        let trace = any_trace(random, &mut content.traces);
        traces::set_padding(random, &mut trace.bytes, trace.n);
    }
    match random.below(8) {
        0 => content.verdict = random.pick(&[5, 6, 128, 255]),
        1 => content.passes = 0,
        2 => long_trace(random, content),
        3 => content.program = random.bytes(4_097),
        4 => content.program.clear(),
        _ => {}
    }
    let mut bytes = content.bytes();
    match random.below(12) {
        0..=4 => damage_trailer(random, content.traces.contacts(), &mut bytes),
        5..=7 => damage_ends(random, &mut bytes),
        8 => flip(random, &mut bytes),
        _ => {}
    }
    bytes
}

/// The trace of any of the contacts.
fn any_trace<'a>(random: &mut Random, traces: &'a mut PerContact<Trace>) -> &'a mut Trace {
    match &mut traces.guard {
        Some(guard) if random.one_in(2) => guard,
        _ => &mut traces.ram,
    }
}

/// More samples than a trace may have.
fn long_trace(random: &mut Random, content: &mut Content) {
    let n = random.pick(&[4_096, 4_097, 4_104, 65_535]);
    *any_trace(random, &mut content.traces) = Trace {
        bytes: random.bytes(trace::bytes_for(n)),
        n: n as u64,
    };
}

/// One field of the trailer, the verdict or the pass count changed.
fn damage_trailer(random: &mut Random, contacts: Contacts, bytes: &mut [u8]) {
    let counts = contacts.contacts().len();
    let trailer = bytes.len() - 6 - 2 * counts;
    let format = bytes.len() - 2;
    match random.below(9) {
        0 => bytes[format + 1] = random.byte(),
        1 => bytes[format] = random.pick(&[0, 1, 2, 3, 4, 0x52, 255]),
        2 | 3 => shift(random, bytes, trailer),
        4 => shift(random, bytes, trailer + 2),
        5 => {
            let count = random.below(counts);
            shift(random, bytes, trailer + 4 + 2 * count);
        }
        6 => same_distances(bytes, trailer),
        7 => other_format(random, bytes, trailer),
        _ => bytes[trailer - 1 - random.below(5)] = random.byte(),
    }
}

/// Changes the 16 bits at a place, mostly by little.
fn shift(random: &mut Random, bytes: &mut [u8], at: usize) {
    let number = short(bytes, at);
    let changed = match random.below(7) {
        0 => random.word() as u16,
        1 => random.pick(&[0, 4, 5, 6, 12, 13, 14, 4_095, 4_096, 65_535]),
        2 => number.wrapping_sub(1),
        3 => number.wrapping_add(8),
        4 => number.wrapping_sub(8),
        _ => number.wrapping_add(1),
    };
    put_short(bytes, at, changed);
}

/// Some or all of what another format's trailer has: the format byte, the first distance, the second.
fn other_format(random: &mut Random, bytes: &mut [u8], trailer: usize) {
    let format = bytes.len() - 2;
    let (others, change) = match bytes[format] {
        1 => ([2, 3], 8u16.wrapping_neg()),
        2 => ([1, 3], 8),
        _ => ([1, 2], random.pick(&[8, 0])),
    };
    if random.one_in(2) {
        bytes[format] = random.pick(&others);
    }
    for at in [trailer, trailer + 2] {
        if random.one_in(2) {
            put_short(bytes, at, short(bytes, at).wrapping_add(change));
        }
    }
}

/// The 16 bits at a place, low byte first.
fn short(bytes: &[u8], at: usize) -> u16 {
    u16::from_le_bytes([bytes[at], bytes[at + 1]])
}

fn put_short(bytes: &mut [u8], at: usize, number: u16) {
    bytes[at..at + 2].copy_from_slice(&number.to_le_bytes());
}

/// Makes the first distance the second.
fn same_distances(bytes: &mut [u8], trailer: usize) {
    bytes.copy_within(trailer + 2..trailer + 4, trailer);
}

/// Bytes dropped from or added to either end.
fn damage_ends(random: &mut Random, bytes: &mut Vec<u8>) {
    let some = random.between(1, 9);
    match random.below(4) {
        0 => bytes.truncate(bytes.len() - some),
        1 => drop(bytes.drain(..some)),
        2 => bytes.extend(random.bytes(some)),
        _ => {
            let place = random.between(0, bytes.len());
            bytes.insert(place, random.byte());
        }
    }
}

/// Turns one bit anywhere.
fn flip(random: &mut Random, bytes: &mut [u8]) {
    let place = random.below(bytes.len());
    bytes[place] ^= 1 << random.below(8);
}

/// An archive of sound records that has exactly so many bytes.
pub fn of_length(random: &mut Random, length: usize) -> Vec<u8> {
    let mut archive = Vec::new();
    while length - archive.len() > 3_000 {
        let contacts = random.pick(&Contacts::ALL);
        let bytes = sound(random, contacts).bytes();
        if archive.len() + bytes.len() + 100 <= length {
            archive.extend(bytes);
        }
    }
    let contacts = random.pick(&Contacts::ALL);
    let empty = PerContact {
        ram: Vec::new(),
        guard: (contacts == Contacts::Two).then(Vec::new),
    };
    let mut last = Content {
        program: Vec::new(),
        traces: trace::packed(&empty),
        label: label(random, contacts),
        verdict: 1,
        passes: 2,
    };
    let rest = length - archive.len() - last.bytes().len();
    last.program = programs::of_size(contacts, rest);
    archive.extend(last.bytes());
    archive
}
