//! Programs: well-formed drafts of all sizes, their bytes, and programs of a given size.

use super::super::oracle::program::{self, Contacts, Demand, Kind};
use super::super::random::Random;
use super::damage;
use super::writer::{list, Mix, Shape, Writer, EMPTY, FALSE, IF, NULL, TAIL};

/// The most bytes of a program.
pub const MOST_BYTES: usize = 4_096;
/// The most bytes of a body.
pub const MOST_BODY: usize = 1_024;
/// What marks the count of a program over two contacts.
const TWO: u8 = 0x80;

/// A function before its bytes are put together.
pub struct Part {
    pub shape: Shape,
    pub body: Vec<u8>,
    /// A header to write instead of the right one.
    pub header: Option<Vec<u8>>,
}

/// A program before its bytes are put together.
pub struct Draft {
    pub contacts: Contacts,
    pub parts: Vec<Part>,
    /// A count to write instead of the right one.
    pub count: Option<u8>,
}

impl Part {
    /// The header as it should be: of two contacts the third byte has a bit for each list of the guard.
    pub fn right_header(&self, contacts: Contacts) -> Vec<u8> {
        let parameters = self.shape.parameters.iter().copied().zip(0..);
        let (mut lists, mut guards) = (0u8, 0u8);
        for (kind, bit) in parameters.chain([(self.shape.result, 4)]) {
            if let Kind::List(contact) = kind {
                lists |= 1 << bit;
                guards |= (contact as u8) << bit;
            }
        }
        let mut header = vec![self.shape.parameters.len() as u8, lists];
        if contacts == Contacts::Two {
            header.push(guards);
        }
        header.extend((self.body.len() as u16).to_le_bytes());
        header
    }
}

impl Draft {
    /// Functions with these kinds and bodies.
    pub fn new(contacts: Contacts, shapes: &[Shape], bodies: Vec<Vec<u8>>) -> Self {
        let parts = shapes.iter().zip(bodies);
        let parts = parts.map(|(shape, body)| part(shape, body)).collect();
        Draft::of_parts(contacts, parts)
    }

    fn of_parts(contacts: Contacts, parts: Vec<Part>) -> Self {
        Draft {
            contacts,
            parts,
            count: None,
        }
    }

    /// The count byte as it should be.
    pub fn right_count(&self) -> u8 {
        let functions = self.parts.len() as u8;
        match self.contacts {
            Contacts::One => functions,
            Contacts::Two => TWO + functions,
        }
    }

    /// The program's bytes.
    pub fn bytes(&self) -> Vec<u8> {
        let mut bytes = vec![self.count.unwrap_or(self.right_count())];
        for part in &self.parts {
            let header = part.header.clone();
            bytes.extend(header.unwrap_or_else(|| part.right_header(self.contacts)));
            bytes.extend(&part.body);
        }
        bytes
    }

    /// The functions' kinds.
    pub fn shapes(&self) -> Vec<Shape> {
        self.parts.iter().map(|part| part.shape.clone()).collect()
    }
}

/// The sort that a program's first byte speaks of, be it accepted or not.
pub fn contacts(program: &[u8]) -> Contacts {
    match program.first() {
        Some(TWO..=u8::MAX) => Contacts::Two,
        _ => Contacts::One,
    }
}

/// A program as the cases take it: mostly well-formed, sometimes damaged, rarely mere bytes.
pub fn any(random: &mut Random, contacts: Contacts, damaged_in: usize) -> Vec<u8> {
    if !random.one_in(damaged_in) {
        return accepted(random, contacts);
    }
    match random.below(12) {
        0 => noise(random, contacts),
        1 => {
            let size = random.pick(&[0, MOST_BYTES + 1, MOST_BYTES + 2, 5_000]);
            of_size(contacts, size)
        }
        _ => damage::program(random, contacts),
    }
}

/// A well-formed program.
pub fn accepted(random: &mut Random, contacts: Contacts) -> Vec<u8> {
    let bytes = match random.below(40) {
        0 => {
            let least = least_size(contacts);
            let size = random.pick(&[least, least + 1, 2_000, MOST_BYTES - 1, MOST_BYTES]);
            of_size(contacts, size)
        }
        1 => deep(random, contacts, 64).bytes(),
        _ => draft(random, contacts).bytes(),
    };
    let checked = program::check_for(contacts, &bytes);
    assert!(checked.is_ok(), "refused: {bytes:02x?}");
    bytes
}

/// Bytes without a plan, the first ones likely.
fn noise(random: &mut Random, contacts: Contacts) -> Vec<u8> {
    let length = random.pick(&[0, 1, 2, 3, 4, 5, 6, 7, 8, 12, 20, 50, 300]);
    let mut bytes = random.bytes(length);
    let count = random.between(1, 3) as u8;
    let likely = match contacts {
        Contacts::One => vec![count, 1, 1, 1, 0],
        Contacts::Two => vec![TWO + count, 2, 3, 2, 1, 0],
    };
    let known = random.between(0, likely.len()).min(length);
    bytes[..known].copy_from_slice(&likely[..known]);
    bytes
}

/// Kinds for a program, main first.
fn shapes(random: &mut Random, contacts: Contacts) -> Vec<Shape> {
    let count = match random.below(20) {
        0..=3 => 1,
        4..=12 => random.between(2, 4),
        13..=17 => random.between(5, 10),
        18 => random.between(11, 32),
        _ => 32,
    };
    let lists = random.pick(&[0, 1, 1, 1, 1, 1, 2, 2, 2, 3, 4]);
    let mut shapes = vec![Shape::main(contacts)];
    shapes.extend((1..count).map(|_| shape(random, contacts, lists)));
    shapes
}

/// Kinds for one function with at most so many lists among its parameters.
pub fn shape(random: &mut Random, contacts: Contacts, mut lists: usize) -> Shape {
    let count = random.pick(&[0, 1, 1, 1, 1, 2, 2, 2, 3, 3, 4]);
    let mut parameters = Vec::new();
    for _ in 0..count {
        let kind = match lists > 0 && !random.one_in(4) {
            true => list(random, contacts),
            false => Kind::Bool,
        };
        lists -= usize::from(kind != Kind::Bool);
        parameters.push(kind);
    }
    Shape {
        parameters,
        result: Mix { contacts, lists: 3 }.kind(random),
    }
}

/// A well-formed program.
pub fn draft(random: &mut Random, contacts: Contacts) -> Draft {
    let shapes = shapes(random, contacts);
    let climb = random.one_in(4);
    let largest = random.pick(&[4, 12, 12, 30, 30, 30, 80, 300, MOST_BODY]);
    let mut room = MOST_BYTES - 1 - contacts.header() * shapes.len();
    let mut parts = Vec::new();
    for own in 0..shapes.len() {
        let later = shapes.len() - own - 1;
        let most = random.between(1, largest.min(room - later));
        let body = body(random, &shapes, own, climb, most);
        room -= body.len();
        parts.push(part(&shapes[own], body));
    }
    Draft::of_parts(contacts, parts)
}

/// A part with the right header.
fn part(shape: &Shape, body: Vec<u8>) -> Part {
    Part {
        shape: shape.clone(),
        body,
        header: None,
    }
}

/// The bytes of a program of functions with these kinds and bodies.
pub fn of_parts(contacts: Contacts, shapes: &[Shape], bodies: Vec<Vec<u8>>) -> Vec<u8> {
    Draft::new(contacts, shapes, bodies).bytes()
}

/// A body of at most so many bytes.
pub fn body(
    random: &mut Random,
    shapes: &[Shape],
    own: usize,
    climb: bool,
    most: usize,
) -> Vec<u8> {
    let mut writer = Writer {
        random,
        shapes,
        own,
        climb,
        calls: true,
        out: Vec::new(),
    };
    writer.body(most);
    writer.out
}

/// A program one of whose bodies is exactly so deep.
pub fn deep(random: &mut Random, contacts: Contacts, depth: usize) -> Draft {
    rewritten(random, contacts, |writer, result| {
        writer.chain(result, depth)
    })
}

/// A program one of whose bodies ends with a node at about the greatest depth, or where that node is due.
pub fn edge(random: &mut Random, contacts: Contacts) -> Draft {
    rewritten(random, contacts, |writer, result| {
        let nodes = writer.random.pick(&[63, 64, 64, 64, 65]);
        let demand = writer.descent(result, nodes);
        match writer.random.below(6) {
            0 | 1 => {}
            2 => writer.out.push(0x24),
            3 => writer.out.push(0xFF),
            4 => writer.wrong_leaf(demand),
            _ => writer.leaf(demand),
        }
    })
}

/// A program with one body written anew; the writing is told what the body must be.
fn rewritten(
    random: &mut Random,
    contacts: Contacts,
    write: impl Fn(&mut Writer, Demand),
) -> Draft {
    let mut draft = small_draft(random, contacts);
    let own = random.below(draft.parts.len());
    let shapes = draft.shapes();
    let mut writer = Writer {
        random,
        shapes: &shapes,
        own,
        climb: false,
        calls: true,
        out: Vec::new(),
    };
    write(&mut writer, Demand::Only(shapes[own].result));
    draft.parts[own].body = writer.out;
    draft
}

/// A well-formed program that leaves room for one body of full size.
fn small_draft(random: &mut Random, contacts: Contacts) -> Draft {
    loop {
        let draft = draft(random, contacts);
        if draft.bytes().len() <= MOST_BYTES - MOST_BODY {
            return draft;
        }
    }
}

/// The bytes of the smallest program.
pub fn least_size(contacts: Contacts) -> usize {
    1 + contacts.header() + 1
}

/// A program of functions without use that has so many bytes, none or at least those of the smallest.
pub fn of_size(contacts: Contacts, size: usize) -> Vec<u8> {
    let header = contacts.header();
    let mut parts = Vec::new();
    let mut rest = size.saturating_sub(1);
    while rest > 0 {
        let last = rest <= MOST_BODY + header;
        let length = match last {
            true => rest - header,
            false => MOST_BODY.min(rest - header - (header + 1)),
        };
        rest -= length + header;
        parts.push(filler(contacts, length, parts.is_empty()));
    }
    match size {
        0 => Vec::new(),
        _ => Draft::of_parts(contacts, parts).bytes(),
    }
}

/// A function with a body of a given length, main or one without parameters.
fn filler(contacts: Contacts, length: usize, main: bool) -> Part {
    let mut shape = Shape::main(contacts);
    if !main {
        shape.parameters.clear();
    }
    let mut body = Vec::new();
    fill(&mut body, length);
    part(&shape, body)
}

/// A Bool expression of a given length.
fn fill(out: &mut Vec<u8>, length: usize) {
    match length {
        1 => out.push(FALSE),
        2 => out.extend([NULL, EMPTY]),
        3 => out.extend([NULL, TAIL, EMPTY]),
        _ => {
            let third = (length - 1) / 3;
            out.push(IF);
            fill(out, third);
            fill(out, third);
            fill(out, length - 1 - 2 * third);
        }
    }
}
