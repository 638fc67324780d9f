//! Programs that come to each of their configurations once before they end: their calls are as many as there can be.

use super::super::oracle::program::{Contact, Contacts, Kind};
use super::super::oracle::trace::{PerContact, Samples};
use super::super::random::Random;
use super::loops::error;
use super::writer::{empty, Shape, CALL, FALSE, IF, NULL, PARAMETER, TAIL};
use super::{programs, traces};

/// The functions of a program that counts, main first. Main goes down the one trace that has samples; each other function
/// goes through all values of its Bools, and its lists are of contacts without samples.
struct Counter {
    contacts: Contacts,
    /// The contact that may have samples.
    long: Contact,
    shapes: Vec<Shape>,
    /// The first value of each parameter of each function.
    starts: Vec<Vec<bool>>,
}

/// A program that counts, and the samples on which it does.
pub fn counter(random: &mut Random, contacts: Contacts) -> (Vec<u8>, Samples) {
    let n = match random.below(24) {
        0 => random.pick(&[255, 256, 4_095]),
        1..=12 => 0,
        _ => random.between(1, 40),
    };
    let counter = Counter::new(random, contacts, n);
    let samples = counter.samples(random, n);
    let functions = counter.shapes.len();
    let mut bodies = Vec::new();
    for own in 0..functions {
        let after = match own + 1 < functions {
            true => counter.start(own + 1),
            false => counter.end(random),
        };
        bodies.push(match own {
            0 => counter.main(after),
            _ => counter.body(random, own, after),
        });
    }
    let program = programs::of_parts(contacts, &counter.shapes, bodies);
    (program, samples)
}

impl Counter {
    fn new(random: &mut Random, contacts: Contacts, n: usize) -> Self {
        let long = random.pick(contacts.contacts());
        let short: Vec<Contact> = contacts
            .contacts()
            .iter()
            .copied()
            .filter(|contact| n == 0 || *contact != long)
            .collect();
        let mut shapes = vec![Shape::main(contacts)];
        for _ in 0..random.pick(&[0, 1, 1, 1, 2, 3, 6]) {
            let count = random.between(0, 4);
            let mut kind = || match short.is_empty() || !random.one_in(5) {
                true => Kind::Bool,
                false => Kind::List(random.pick(&short)),
            };
            shapes.push(Shape {
                parameters: (0..count).map(|_| kind()).collect(),
                result: Kind::Bool,
            });
        }
        let starts = shapes
            .iter()
            .map(|shape| shape.parameters.iter().map(|_| random.one_in(2)).collect())
            .collect();
        Counter {
            contacts,
            long,
            shapes,
            starts,
        }
    }

    /// So many samples of the one contact, and none of another.
    fn samples(&self, random: &mut Random, n: usize) -> Samples {
        let count = |contact: Contact| if contact == self.long { n } else { 0 };
        let counts = PerContact {
            ram: count(Contact::Ram),
            guard: (self.contacts == Contacts::Two).then(|| count(Contact::Guard)),
        };
        traces::samples(random, &counts)
    }

    /// The call of a function on its first values.
    fn start(&self, callee: usize) -> Vec<u8> {
        let parameters = self.shapes[callee].parameters.iter();
        let first = |(kind, start): (&Kind, &bool)| match kind {
            Kind::Bool => FALSE + u8::from(*start),
            Kind::List(contact) => empty(*contact),
        };
        let values = parameters.zip(&self.starts[callee]).map(first);
        [CALL + callee as u8].into_iter().chain(values).collect()
    }

    /// Where all is counted: an outcome, an error in an argument, or from the beginning again, for ever.
    fn end(&self, random: &mut Random) -> Vec<u8> {
        let head = random.one_in(2);
        let callee = random.below(self.shapes.len());
        let kinds = &self.shapes[callee].parameters;
        match random.below(8) {
            0 | 1 => error(Kind::Bool, head),
            2 | 3 => self.start(callee),
            4 | 5 if !kinds.is_empty() => {
                let which = random.below(kinds.len());
                let mut call = self.start(callee);
                call.splice(1 + which..2 + which, error(kinds[which], head));
                call
            }
            _ => vec![FALSE + u8::from(head)],
        }
    }

    /// Goes down the trace that has samples.
    fn main(&self, after: Vec<u8>) -> Vec<u8> {
        let list = |contact: Contact| PARAMETER + contact as u8;
        let mut body = vec![IF, NULL, list(self.long)];
        body.extend(after);
        body.push(CALL);
        for contact in self.contacts.contacts() {
            body.extend((*contact == self.long).then_some(TAIL));
            body.push(list(*contact));
        }
        body
    }

    /// Counts through the Bools, in any order: one that has its first value gets the other, and those that changed before
    /// it get their first values again.
    fn body(&self, random: &mut Random, own: usize, after: Vec<u8>) -> Vec<u8> {
        let kinds = self.shapes[own].parameters.iter().enumerate();
        let bools = kinds.filter(|(_, kind)| **kind == Kind::Bool);
        let mut order: Vec<usize> = bools.map(|(which, _)| which).collect();
        random.shuffle(&mut order);
        let mut body = after;
        for (place, which) in order.iter().enumerate().rev() {
            let start = self.starts[own][*which];
            let step = self.step(own, &order[..place], *which);
            let test = [IF, PARAMETER + *which as u8];
            body = match start {
                true => [&test[..], &step, &body].concat(),
                false => [&test[..], &body, &step].concat(),
            };
        }
        body
    }

    /// The call in which a Bool gets its other value, and some get their first values.
    fn step(&self, own: usize, again: &[usize], changed: usize) -> Vec<u8> {
        let mut call = vec![CALL + own as u8];
        for (which, start) in self.starts[own].iter().enumerate() {
            call.push(match which {
                _ if which == changed => FALSE + u8::from(!start),
                _ if again.contains(&which) => FALSE + u8::from(*start),
                _ => PARAMETER + which as u8,
            });
        }
        call
    }
}
