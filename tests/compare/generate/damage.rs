//! Damage to programs: each sort of fault on purpose, and changes at random.

use super::super::oracle::program::{Contacts, Kind};
use super::super::random::Random;
use super::programs::{self, Draft};
use super::writer::{empty, CALL, FALSE, PARAMETER};

/// A damaged program; it may still be accepted.
pub fn program(random: &mut Random, contacts: Contacts) -> Vec<u8> {
    match random.below(20) {
        0 => {
            let depth = random.pick(&[64, 65, 65, 66, 100]);
            let draft = programs::deep(random, contacts, depth);
            finished(random, draft, 0)
        }
        1 => {
            let draft = programs::edge(random, contacts);
            finished(random, draft, 0)
        }
        _ => {
            let draft = programs::draft(random, contacts);
            let faults = random.pick(&[1, 1, 1, 1, 2, 3]);
            finished(random, draft, faults)
        }
    }
}

/// The bytes of a draft with so many faults, sometimes damaged further.
pub fn finished(random: &mut Random, mut draft: Draft, faults: usize) -> Vec<u8> {
    for _ in 0..faults {
        damage_draft(random, &mut draft);
    }
    let mut bytes = draft.bytes();
    if random.one_in(5) {
        damage_bytes(random, &mut bytes);
    }
    bytes
}

/// One fault in a draft.
fn damage_draft(random: &mut Random, draft: &mut Draft) {
    let own = random.below(draft.parts.len());
    match random.below(20) {
        0 => damage_count(random, draft),
        1 => draft.count = Some(near(random, draft.right_count())),
        2 | 3 => damage_header(random, draft, own),
        4 => damage_header(random, draft, 0),
        5 => shorten(random, &mut draft.parts[own].body),
        6 => lengthen(random, &mut draft.parts[own].body),
        7 => swap_headers(random, draft),
        8 | 9 => other_leaf(random, draft, own, |kind| kind != Kind::Bool),
        10..=13 => other_leaf(random, draft, own, |_| true),
        _ => damage_body(random, draft, own),
    }
}

/// A count of no functions or too many, or the same count for the other sort.
fn damage_count(random: &mut Random, draft: &mut Draft) {
    let other = draft.right_count() ^ 0x80;
    let count = random.pick(&[0, 33, 34, 127, 128, 161, 162, 255, other, other]);
    draft.count = Some(count);
}

/// A number one off or two.
fn near(random: &mut Random, number: u8) -> u8 {
    let change = random.pick(&[1, 2, 254, 255]);
    number.wrapping_add(change)
}

/// One wrong byte or length in a header.
fn damage_header(random: &mut Random, draft: &mut Draft, own: usize) {
    let part = &mut draft.parts[own];
    let mut header = part.right_header(draft.contacts);
    let length = header.len() - 2;
    match random.below(7) {
        0 => header[0] = random.pick(&[0, 1, 2, 3, 4, 5, 6, 255]),
        1 => header[1] ^= 1 << random.below(8),
        2 => header[1] = random.byte(),
        3 => {
            let wrong = random.pick(&[0u16, 1, 1_024, 1_025, 65_535]);
            header[length..].copy_from_slice(&wrong.to_le_bytes());
        }
        4 => header[length] = near(random, header[length]),
        // of two contacts the bits of the guard's lists
        5 => header[length - 1] ^= 1 << random.below(8),
        _ => {
            let place = random.below(header.len());
            header[place] = random.byte();
        }
    }
    part.header = Some(header);
}

/// One parameter or constant of a body in place of another, both among some kinds; often of a kind not demanded.
fn other_leaf(random: &mut Random, draft: &mut Draft, own: usize, among: fn(Kind) -> bool) {
    let part = &mut draft.parts[own];
    let contacts = draft.contacts.contacts().iter();
    let mut leaves = vec![(FALSE, Kind::Bool), (FALSE + 1, Kind::Bool)];
    leaves.extend(contacts.map(|it| (empty(*it), Kind::List(*it))));
    leaves.extend((PARAMETER..).zip(part.shape.parameters.iter().copied()));
    leaves.retain(|(_, kind)| among(*kind));
    let leaves: Vec<u8> = leaves.into_iter().map(|(byte, _)| byte).collect();
    let places = (0..part.body.len()).filter(|place| leaves.contains(&part.body[*place]));
    let places: Vec<usize> = places.collect();
    if !places.is_empty() {
        part.body[random.pick(&places)] = random.pick(&leaves);
    }
}

/// Drops bytes from a body's end, but not all.
fn shorten(random: &mut Random, body: &mut Vec<u8>) {
    let left = random.between(1, body.len());
    body.truncate(left);
}

/// Adds bytes to a body's end.
fn lengthen(random: &mut Random, body: &mut Vec<u8>) {
    let more = random.pick(&[1, 1, 2, 3, 1_020]);
    for _ in 0..more {
        let byte = body_byte(random);
        body.push(byte);
    }
}

/// Two functions keep their bodies and change their headers.
fn swap_headers(random: &mut Random, draft: &mut Draft) {
    let (one, two) = (
        random.below(draft.parts.len()),
        random.below(draft.parts.len()),
    );
    let shape = draft.parts[one].shape.clone();
    draft.parts[one].shape = draft.parts[two].shape.clone();
    draft.parts[two].shape = shape;
}

/// One byte of a body changed, dropped or inserted.
fn damage_body(random: &mut Random, draft: &mut Draft, own: usize) {
    let functions = draft.parts.len() as u8;
    let body = &mut draft.parts[own].body;
    let place = random.below(body.len());
    match random.below(8) {
        0 => body[place] = 0x24,
        1 => body[place] = CALL + functions % 32,
        2 => body[place] = random.byte(),
        3 if body.len() > 1 => {
            body.remove(place);
        }
        4 => {
            let byte = body_byte(random);
            body.insert(place, byte);
        }
        _ => body[place] = body_byte(random),
    }
}

/// A byte that bodies are made of.
fn body_byte(random: &mut Random) -> u8 {
    random.pick(&[
        0x00, 0x01, 0x02, 0x03, 0x10, 0x11, 0x12, 0x13, 0x14, 0x20, 0x21, 0x22, 0x23, 0x24, 0x25,
        0x80, 0x81, 0x82, 0x9F, 0xA0,
    ])
}

/// One change to the bytes, wherever it falls.
fn damage_bytes(random: &mut Random, bytes: &mut Vec<u8>) {
    let place = random.below(bytes.len());
    match random.below(6) {
        0 => bytes[place] = random.byte(),
        1 => bytes[place] ^= 1 << random.below(8),
        2 => {
            bytes.remove(place);
        }
        3 => bytes.insert(place, random.byte()),
        4 => bytes.truncate(place),
        _ => {
            let more = random.between(1, 6);
            bytes.extend(random.bytes(more));
        }
    }
}
