//! Rings, sound and unsound.

use super::super::random::Random;

/// A ring's slice and state: next place and count.
pub struct Ring {
    pub slots: Vec<u8>,
    pub state: [u64; 2],
}

/// Any ring.
pub fn any(random: &mut Random) -> Ring {
    let length = match random.below(12) {
        0 => random.pick(&[0, 4_096, 4_097, 5_000]),
        1 => random.pick(&[1, 2, 7, 8, 9, 4_094, 4_095]),
        2 => random.between(1, 4_095),
        _ => random.between(1, 40),
    };
    let slots = slots(random, length);
    let state = match random.one_in(8) {
        true => unsound(random, length as u64),
        false => sound(random, length),
    };
    Ring { slots, state }
}

/// Slots that hold 0, 1 and sometimes other bytes.
fn slots(random: &mut Random, length: usize) -> Vec<u8> {
    match random.below(3) {
        0 => (0..length).map(|_| random.pick(&[0, 1])).collect(),
        1 => (0..length)
            .map(|_| random.pick(&[0, 0, 1, 2, 128, 255]))
            .collect(),
        _ => random.bytes(length),
    }
}

/// A state within a ring's length.
fn sound(random: &mut Random, length: usize) -> [u64; 2] {
    let next = match random.below(4) {
        0 => 0,
        1 => length.saturating_sub(1),
        _ => random.below(length.max(1)),
    };
    let count = match random.below(4) {
        0 => 0,
        1 => length,
        2 => length.saturating_sub(1),
        _ => random.between(0, length),
    };
    [next as u64, count as u64]
}

/// A state at and beyond a ring's length.
fn unsound(random: &mut Random, length: u64) -> [u64; 2] {
    let beyond = [
        0,
        length.wrapping_sub(1),
        length,
        length + 1,
        length + 7,
        1 << 32,
        u64::MAX,
        u64::MAX - length,
    ];
    [random.pick(&beyond), random.pick(&beyond)]
}
