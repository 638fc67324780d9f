//! The walk: an accepted program as trees, taken on every configuration, with calls looked up in the cells that
//! evaluating left.

use super::super::generate::programs::{self, MOST_BYTES};
use super::super::language::{
    kind_name, kind_number, kinds, mix_name, Outcome, Place, Sort, GUARD, RAM,
};
use super::super::oracle::program::{Contact, Contacts, Kind, Value};
use super::super::oracle::trace::Samples;

/// The kinds of a function: those of its parameters, of which the absent are Bools, and of its result.
#[derive(Clone, Copy)]
pub struct Kinds {
    count: usize,
    parameters: [Kind; 4],
    result: Kind,
}

/// A function of an accepted program.
pub struct Function {
    pub kinds: Kinds,
    /// Its first cell, and the cell after its last.
    start: usize,
    end: usize,
    /// Its body's first byte, and the byte after its body.
    body: (usize, usize),
}

pub struct Node {
    byte: u8,
    pub place: Place,
    /// Where the node above stands, if there is one.
    pub above: Option<Place>,
    pub sort: Sort,
    pub depth: usize,
    operands: [usize; 4],
    /// A bit for each outcome that came of it.
    pub seen: u8,
}

/// What ends the taking of a node without a value.
#[derive(Clone, Copy)]
enum Stop {
    Undecided,
    HeadOfEmpty,
    TailOfEmpty,
}

/// A program on samples with the cells that evaluating left.
pub struct Walk<'a> {
    contacts: Contacts,
    program: &'a [u8],
    samples: &'a Samples,
    cells: &'a [u16],
    pub functions: Vec<Function>,
    /// The nodes of the function that was taken last.
    pub nodes: Vec<Node>,
    /// The function that is taken, and the values of its parameters.
    own: usize,
    values: [Value; 4],
    /// The byte after the function that was taken last.
    read: usize,
}

impl Kinds {
    /// How many kinds of functions there are.
    pub const COUNT: usize = 363;

    /// All in programs of a sort.
    pub fn all(contacts: Contacts) -> Vec<Kinds> {
        let one = |kind: &Kind| Kinds {
            count: 0,
            parameters: [Kind::Bool; 4],
            result: *kind,
        };
        let mut all: Vec<Kinds> = kinds(contacts).iter().map(one).collect();
        let mut longest = all.clone();
        for count in 0..4 {
            let longer = |it: &Kinds, kind: &Kind| {
                let mut longer = Kinds {
                    count: count + 1,
                    ..*it
                };
                longer.parameters[count] = *kind;
                longer
            };
            let of_all = |it| kinds(contacts).iter().map(move |kind| longer(it, kind));
            longest = longest.iter().flat_map(of_all).collect();
            all.extend(&longest);
        }
        all
    }

    fn parameters(&self) -> &[Kind] {
        &self.parameters[..self.count]
    }

    pub fn number(self) -> usize {
        let digit = |number: usize, kind: &Kind| 3 * number + kind_number(*kind);
        let shorter = [0, 1, 4, 13, 40][self.count];
        3 * (shorter + self.parameters().iter().fold(0, digit)) + kind_number(self.result)
    }

    pub fn name(self) -> String {
        let result = kind_name(self.result);
        format!("{}, giving a {result}", mix_name(self.parameters()))
    }

    /// What may come of a call. Without a list of that contact at hand there is only the empty one.
    pub fn outcomes(self) -> &'static [Outcome] {
        match self.result != Kind::Bool && !self.parameters().contains(&self.result) {
            true => Sort::Call(0, self.result).outcomes(),
            false => &Outcome::ALL,
        }
    }
}

impl Node {
    /// The numbers of the outcomes that came of it.
    pub fn outcomes(&self) -> impl Iterator<Item = usize> + '_ {
        (0..Outcome::COUNT).filter(|outcome| self.seen >> outcome & 1 == 1)
    }

    /// The function called, if it is a call.
    pub fn callee(&self) -> Option<usize> {
        self.byte.checked_sub(0x80).map(usize::from)
    }
}

impl<'a> Walk<'a> {
    pub fn new(program: &'a [u8], samples: &'a Samples, cells: &'a [u16]) -> Self {
        let mut walk = Walk {
            contacts: programs::contacts(program),
            program,
            samples,
            cells,
            functions: Vec::new(),
            nodes: Vec::new(),
            own: 0,
            values: [Value::Bool(false); 4],
            read: 0,
        };
        walk.headers();
        walk
    }

    /// Finds the functions, their first cells and their bodies.
    fn headers(&mut self) {
        let (mut at, mut start) = (1, 0);
        for _ in 0..self.program[0] & 0x7F {
            let header = &self.program[at..];
            let (count, lists, guards, length) = match self.contacts {
                Contacts::One => (header[0], header[1], 0, [header[2], header[3]]),
                Contacts::Two => (header[0], header[1], header[2], [header[3], header[4]]),
            };
            let kind = |bit: usize| match (lists >> bit & 1, guards >> bit & 1) {
                (0, _) => Kind::Bool,
                (_, 0) => RAM,
                _ => GUARD,
            };
            let kinds = Kinds {
                count: count.into(),
                parameters: [0, 1, 2, 3].map(kind),
                result: kind(4),
            };
            let radixes = kinds.parameters().iter().map(|kind| self.radix(*kind));
            let cells: usize = radixes.product();
            let body = at + self.contacts.header();
            let end = body + usize::from(u16::from_le_bytes(length));
            self.functions.push(Function {
                kinds,
                start,
                end: start + cells,
                body: (body, end),
            });
            (at, start) = (end, start + cells);
        }
    }

    fn radix(&self, kind: Kind) -> usize {
        match kind {
            Kind::List(contact) => self.samples.of(contact).len() + 1,
            Kind::Bool => 2,
        }
    }

    /// Takes a function's body on every configuration; a cell that holds something else is told.
    pub fn function(&mut self, own: usize) -> Result<(), String> {
        let Function {
            kinds,
            start,
            end,
            body,
            ..
        } = self.functions[own];
        let mut at = body.0;
        self.own = own;
        self.node(&mut at, Place::Body(kinds.result), None, 1);
        assert_eq!(at, body.1);
        self.read = at;
        for cell in start..end {
            self.set_values(cell - start);
            let held = match self.take(0) {
                Err(Stop::Undecided) => 0,
                Err(Stop::HeadOfEmpty) => 3,
                Err(Stop::TailOfEmpty) => 4,
                Ok(value) if value.kind() == kinds.result => value.cell(),
                Ok(value) => return Err(format!("cell {cell}: its body comes to {value:?}\n")),
            };
            let left = self.cells[cell];
            if held != left {
                return Err(format!(
                    "cell {cell} holds {left}, its body comes to {held}\n"
                ));
            }
        }
        Ok(())
    }

    /// The node that is the last byte of a program of the greatest length, if it was taken just now.
    pub fn end(&self) -> Option<&Node> {
        let last = self.nodes.last().filter(|node| node.seen != 0)?;
        let whole = self.read == self.program.len() && self.read == MOST_BYTES;
        whole.then_some(last)
    }

    /// The parameters' values in a configuration, the last parameter the least significant.
    fn set_values(&mut self, mut place: usize) {
        let kinds = self.functions[self.own].kinds;
        for (which, kind) in kinds.parameters().iter().enumerate().rev() {
            let radix = self.radix(*kind);
            self.values[which] = kind.value((place % radix) as u16);
            place /= radix;
        }
    }

    /// Reads the node that begins here, and all below it; gives its number.
    fn node(&mut self, at: &mut usize, place: Place, above: Option<Place>, depth: usize) -> usize {
        let byte = self.program[*at];
        let number = self.nodes.len();
        self.nodes.push(Node {
            byte,
            place,
            above,
            sort: self.sort(*at),
            depth,
            operands: [0; 4],
            seen: 0,
        });
        *at += 1;
        let demand = place.demand(self.contacts);
        match byte {
            0x20 => self.operands(at, number, &[Place::Head]),
            0x21 => self.operands(at, number, &[Place::Tail(demand)]),
            0x22 => self.operands(at, number, &[Place::Null]),
            0x23 => {
                let condition = Place::Condition(demand);
                let places = [condition, Place::Then(demand), Place::Else(demand)];
                self.operands(at, number, &places);
            }
            0x80.. => {
                let kinds = self.functions[usize::from(byte - 0x80)].kinds;
                let mut places = [Place::Head; 4];
                for (which, kind) in kinds.parameters().iter().enumerate() {
                    places[which] = Place::Argument(kinds.count, which, *kind);
                }
                self.operands(at, number, &places[..kinds.count]);
            }
            _ => {}
        }
        number
    }

    fn operands(&mut self, at: &mut usize, number: usize, places: &[Place]) {
        let Node { place, depth, .. } = self.nodes[number];
        for (which, operand) in places.iter().enumerate() {
            let below = self.node(at, *operand, Some(place), depth + 1);
            self.nodes[number].operands[which] = below;
        }
    }

    /// The sort of the node that begins at a byte of the function that is taken.
    fn sort(&self, at: usize) -> Sort {
        let kind = |byte: u8| self.functions[self.own].kinds.parameters[usize::from(byte - 0x10)];
        let list = |at: usize| match self.program[at] {
            byte @ 0x10..=0x13 => match kind(byte) {
                Kind::List(contact) => Some(contact),
                Kind::Bool => None,
            },
            _ => None,
        };
        match self.program[at] {
            0x00 => Sort::False,
            0x01 => Sort::True,
            0x02 => Sort::Empty(Contact::Ram),
            0x03 => Sort::Empty(Contact::Guard),
            byte @ 0x10..=0x13 => Sort::Parameter(usize::from(byte - 0x10), kind(byte)),
            0x20 => list(at + 1).map_or(Sort::Head, Sort::HeadOfParameter),
            0x21 => list(at + 1).map_or(Sort::Tail, Sort::TailOfParameter),
            0x22 => list(at + 1).map_or(Sort::Null, Sort::NullOfParameter),
            0x23 => match self.program[at + 1] {
                0x10..=0x13 => Sort::IfParameter,
                0x20 => list(at + 2).map_or(Sort::If, Sort::IfHeadOfParameter),
                0x22 => list(at + 2).map_or(Sort::If, Sort::IfNullOfParameter),
                _ => Sort::If,
            },
            byte => {
                let kinds = self.functions[usize::from(byte - 0x80)].kinds;
                Sort::Call(kinds.count, kinds.result)
            }
        }
    }

    /// Takes a node on the values set, and keeps what comes of it.
    fn take(&mut self, number: usize) -> Result<Value, Stop> {
        let taken = self.outcome(number);
        let outcome = match taken {
            Err(Stop::Undecided) => Outcome::Undecided,
            Err(Stop::HeadOfEmpty) => Outcome::HeadOfEmpty,
            Err(Stop::TailOfEmpty) => Outcome::TailOfEmpty,
            Ok(value) if value.digit() == 0 => Outcome::Least,
            Ok(_) => Outcome::More,
        };
        self.nodes[number].seen |= 1 << outcome as u8;
        taken
    }

    /// Takes an operand that is a list: its contact and its length.
    fn list(&mut self, number: usize) -> Result<(Contact, u16), Stop> {
        match self.take(number)? {
            Value::Suffix(contact, length) => Ok((contact, length)),
            Value::Bool(_) => unreachable!("a list is demanded"),
        }
    }

    fn outcome(&mut self, number: usize) -> Result<Value, Stop> {
        let Node { byte, operands, .. } = self.nodes[number];
        match byte {
            0x00 | 0x01 => Ok(Value::Bool(byte == 1)),
            0x02 => Ok(Value::Suffix(Contact::Ram, 0)),
            0x03 => Ok(Value::Suffix(Contact::Guard, 0)),
            0x10..=0x13 => Ok(self.values[usize::from(byte - 0x10)]),
            0x20 => match self.list(operands[0])? {
                (_, 0) => Err(Stop::HeadOfEmpty),
                (contact, length) => {
                    let samples = self.samples.of(contact);
                    Ok(Value::Bool(samples[samples.len() - usize::from(length)]))
                }
            },
            0x21 => match self.list(operands[0])? {
                (_, 0) => Err(Stop::TailOfEmpty),
                (contact, length) => Ok(Value::Suffix(contact, length - 1)),
            },
            0x22 => Ok(Value::Bool(self.list(operands[0])?.1 == 0)),
            0x23 => match self.take(operands[0])? {
                Value::Bool(false) => self.take(operands[2]),
                _ => self.take(operands[1]),
            },
            _ => self.call(usize::from(byte - 0x80), operands),
        }
    }

    /// Takes the arguments and looks the call up.
    fn call(&mut self, callee: usize, operands: [usize; 4]) -> Result<Value, Stop> {
        let Function { kinds, start, .. } = self.functions[callee];
        let mut place = 0;
        for (kind, operand) in kinds.parameters().iter().zip(operands) {
            let value = self.take(operand)?;
            assert_eq!(value.kind(), *kind);
            place = place * self.radix(*kind) + usize::from(value.digit());
        }
        match self.cells[start + place] {
            0 => Err(Stop::Undecided),
            3 => Err(Stop::HeadOfEmpty),
            4 => Err(Stop::TailOfEmpty),
            cell => Ok(kinds.result.value(cell - kinds.result.value(0).cell())),
        }
    }
}
