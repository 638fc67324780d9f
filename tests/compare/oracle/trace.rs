//! Packed traces.

use super::program::{Contact, Contacts};

/// The largest number of samples in a trace.
pub const MOST_SAMPLES: u64 = 4_095;

/// Something of the ram contact, and of the guard contact where there are two.
#[derive(Clone, Debug, PartialEq, Eq)]
pub struct PerContact<T> {
    pub ram: T,
    pub guard: Option<T>,
}

/// A lent trace: its bytes, and how many samples they shall hold.
#[derive(Clone, Debug, PartialEq, Eq)]
pub struct Trace {
    pub bytes: Vec<u8>,
    pub n: u64,
}

pub type Traces = PerContact<Trace>;
pub type Samples = PerContact<Vec<bool>>;

impl<T> PerContact<T> {
    pub fn contacts(&self) -> Contacts {
        match self.guard {
            Some(_) => Contacts::Two,
            None => Contacts::One,
        }
    }

    /// That of a contact which is there.
    pub fn of(&self, contact: Contact) -> &T {
        match contact {
            Contact::Ram => &self.ram,
            Contact::Guard => self.guard.as_ref().expect("there are two contacts"),
        }
    }

    /// That of each contact, the ram's first.
    pub fn each(&self) -> impl Iterator<Item = &T> {
        std::iter::once(&self.ram).chain(&self.guard)
    }

    pub fn map<U>(&self, change: impl Fn(&T) -> U) -> PerContact<U> {
        PerContact {
            ram: change(&self.ram),
            guard: self.guard.as_ref().map(change),
        }
    }
}

/// The bytes that hold n samples.
pub fn bytes_for(n: usize) -> usize {
    n.div_ceil(8)
}

/// Packs samples, oldest first, the bits above the last 0.
pub fn pack(samples: &[bool]) -> Vec<u8> {
    let mut bytes = Vec::new();
    for group in samples.chunks(8) {
        let ones = group.iter().enumerate().filter(|(_, one)| **one);
        bytes.push(ones.map(|(place, _)| 1u8 << place).sum());
    }
    bytes
}

/// The samples as lent traces, each packed from a byte of its own.
pub fn packed(samples: &Samples) -> Traces {
    samples.map(|samples| Trace {
        bytes: pack(samples),
        n: samples.len() as u64,
    })
}

/// The samples of the bytes that n of them take, or nothing if a bit above the last is set.
pub fn unpack(bytes: &[u8], n: usize) -> Option<Vec<bool>> {
    let bit = |place: usize| bytes[place / 8] >> (place % 8) & 1 == 1;
    let mut samples: Vec<bool> = (0..8 * bytes.len()).map(bit).collect();
    let above = samples.split_off(n);
    (!above.contains(&true)).then_some(samples)
}

/// The samples of lent traces: 20 if n or the length of any is wrong, then 23.
pub fn lent(traces: &Traces) -> Result<Samples, u32> {
    let wrong = |it: &Trace| it.n > MOST_SAMPLES || it.bytes.len() != bytes_for(it.n as usize);
    if traces.each().any(wrong) {
        return Err(20);
    }
    let samples = traces.map(|it| unpack(&it.bytes, it.n as usize));
    if samples.each().any(Option::is_none) {
        return Err(23);
    }
    Ok(samples.map(|it| it.clone().unwrap_or_default()))
}
