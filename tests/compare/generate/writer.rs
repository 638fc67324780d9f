//! Writes random expressions that respect the kinds.

use super::super::language::{kinds, BOOL};
use super::super::oracle::program::{Contact, Contacts, Demand, Kind};
use super::super::random::Random;

pub const FALSE: u8 = 0x00;
pub const EMPTY: u8 = 0x02;
pub const PARAMETER: u8 = 0x10;
pub const HEAD: u8 = 0x20;
pub const TAIL: u8 = 0x21;
pub const NULL: u8 = 0x22;
pub const IF: u8 = 0x23;
pub const CALL: u8 = 0x80;

/// The byte of the empty list of a contact.
pub fn empty(contact: Contact) -> u8 {
    EMPTY + contact as u8
}

/// A function's kinds.
#[derive(Clone, Debug)]
pub struct Shape {
    pub parameters: Vec<Kind>,
    pub result: Kind,
}

/// How kinds are drawn: one in so many is a list, of one of the contacts.
#[derive(Clone, Copy)]
pub struct Mix {
    pub contacts: Contacts,
    pub lists: usize,
}

impl Mix {
    pub fn kind(self, random: &mut Random) -> Kind {
        match random.one_in(self.lists) {
            true => list(random, self.contacts),
            false => Kind::Bool,
        }
    }

    /// The same contacts, and as many lists as Bools.
    pub fn even(self) -> Mix {
        Mix { lists: 2, ..self }
    }
}

/// A list of any of the contacts.
pub fn list(random: &mut Random, contacts: Contacts) -> Kind {
    Kind::List(random.pick(contacts.contacts()))
}

impl Shape {
    /// Any kinds.
    pub fn any(random: &mut Random, mix: Mix) -> Self {
        let count = random.between(0, 4);
        Shape {
            parameters: (0..count).map(|_| mix.kind(random)).collect(),
            result: mix.even().kind(random),
        }
    }

    /// Main's kinds.
    pub fn main(contacts: Contacts) -> Self {
        Shape {
            parameters: contacts.main(),
            result: Kind::Bool,
        }
    }
}

/// A kind that a demand allows.
pub fn settled(random: &mut Random, contacts: Contacts, demand: Demand) -> Kind {
    match demand {
        Demand::Only(kind) => kind,
        Demand::Either => list(random, contacts),
    }
}

/// The sort of a program with these functions: main, the first of them, has a list of each contact.
fn contacts(shapes: &[Shape]) -> Contacts {
    match shapes[0].parameters.len() {
        1 => Contacts::One,
        _ => Contacts::Two,
    }
}

/// The byte of a constant that a demand allows, in a program with these functions.
pub fn constant(random: &mut Random, shapes: &[Shape], demand: Demand) -> u8 {
    match settled(random, contacts(shapes), demand) {
        Kind::Bool => FALSE + random.below(2) as u8,
        Kind::List(contact) => empty(contact),
    }
}

/// Writes the body of one function.
pub struct Writer<'a> {
    pub random: &'a mut Random,
    pub shapes: &'a [Shape],
    pub own: usize,
    /// Each function calls the next one in turn, so that many passes are needed.
    pub climb: bool,
    /// Functions may be called.
    pub calls: bool,
    pub out: Vec<u8>,
}

/// An expression without calls for the body of a function, at most so long and so deep.
pub fn plain(
    random: &mut Random,
    shapes: &[Shape],
    own: usize,
    demand: Demand,
    (room, depth): (usize, usize),
) -> Vec<u8> {
    let mut writer = Writer {
        random,
        shapes,
        own,
        climb: false,
        calls: false,
        out: Vec::new(),
    };
    writer.expression(demand, room, depth);
    writer.out
}

impl Writer<'_> {
    /// A body of at most so many bytes.
    pub fn body(&mut self, room: usize) {
        let result = Demand::Only(self.shapes[self.own].result);
        match self.parameter(Demand::Either) {
            Some(list) if room >= 8 && !self.random.one_in(4) => self.by_list(list, room),
            _ => self.expression(result, room, 64),
        }
    }

    /// An if on the emptiness of a list, and sometimes one on its head; the rest mostly recurs.
    fn by_list(&mut self, list: u8, room: usize) {
        let result = Demand::Only(self.shapes[self.own].result);
        self.out.extend([IF, NULL, list]);
        let base = self.random.between(1, (room - 7).min(4));
        let before = self.out.len();
        self.expression(result, base, 63);
        let room = room - 3 - (self.out.len() - before);
        if room >= 9 && self.random.one_in(2) {
            self.out.extend([IF, HEAD, list]);
            let rooms = self.split(room - 3, 2);
            self.call(result, rooms[0], 62);
            self.call(result, rooms[1], 62);
        } else {
            self.call(result, room, 63);
        }
    }

    /// An expression for a demand, at most so long and so deep.
    pub fn expression(&mut self, demand: Demand, room: usize, depth: usize) {
        if room < 2 || depth < 2 {
            return self.leaf(demand);
        }
        match self.random.below(12) {
            0..=2 => self.leaf(demand),
            3..=5 => self.unary(demand, room, depth),
            6..=8 => self.choice(demand, room, depth),
            _ => self.call(demand, room, depth),
        }
    }

    /// The byte of a random parameter that a demand allows.
    fn parameter(&mut self, demand: Demand) -> Option<u8> {
        let kinds = &self.shapes[self.own].parameters;
        let fits = |place: &usize| demand.allows(kinds[*place]);
        let places: Vec<usize> = (0..kinds.len()).filter(fits).collect();
        if places.is_empty() {
            return None;
        }
        Some(PARAMETER + self.random.pick(&places) as u8)
    }

    /// A node without operands.
    pub fn leaf(&mut self, demand: Demand) {
        if self.random.one_in(8) && self.constant_function(demand) {
            return;
        }
        let byte = match self.parameter(demand) {
            Some(byte) if !self.random.one_in(4) => byte,
            _ => constant(self.random, self.shapes, demand),
        };
        self.out.push(byte);
    }

    /// A call of a function without parameters, if there is one.
    fn constant_function(&mut self, demand: Demand) -> bool {
        let callees = self.callees(demand, 1);
        if callees.is_empty() {
            return false;
        }
        let callee = self.random.pick(&callees);
        self.out.push(CALL + callee as u8);
        true
    }

    /// The functions with a result that a demand allows whose call fits the room.
    fn callees(&self, demand: Demand, room: usize) -> Vec<usize> {
        let fits = |shape: &Shape| demand.allows(shape.result) && shape.parameters.len() < room;
        (0..self.shapes.len())
            .filter(|callee| self.calls && fits(&self.shapes[*callee]))
            .collect()
    }

    /// The functions with a result that a demand allows that have parameters.
    fn users(&self, demand: Demand) -> Vec<usize> {
        let mut callees = self.callees(demand, 5);
        callees.retain(|callee| !self.shapes[*callee].parameters.is_empty());
        callees
    }

    /// hd, tl or null without its operand; gives what that must be.
    fn node_of_list(&mut self, demand: Demand, of_bool: &[u8]) -> Demand {
        let (node, below) = match demand {
            BOOL => (self.random.pick(of_bool), Demand::Either),
            _ => (TAIL, demand),
        };
        self.out.push(node);
        below
    }

    /// hd, tl or null.
    fn unary(&mut self, demand: Demand, room: usize, depth: usize) {
        let below = self.node_of_list(demand, &[HEAD, HEAD, NULL]);
        self.expression(below, room - 1, depth - 1);
    }

    /// An if.
    fn choice(&mut self, demand: Demand, room: usize, depth: usize) {
        if room < 4 {
            return self.unary(demand, room, depth);
        }
        let rooms = self.split(room - 1, 3);
        self.out.push(IF);
        self.expression(BOOL, rooms[0], depth - 1);
        self.expression(demand, rooms[1], depth - 1);
        self.expression(demand, rooms[2], depth - 1);
    }

    /// A call; its lists are often tails of parameters.
    fn call(&mut self, demand: Demand, room: usize, depth: usize) {
        let callees = self.callees(demand, room);
        if callees.is_empty() || depth < 2 {
            return self.leaf(demand);
        }
        let callee = self.callee(&callees);
        let shapes = self.shapes;
        let kinds = &shapes[callee].parameters;
        let rooms = self.split(room - 1, kinds.len());
        self.out.push(CALL + callee as u8);
        for (kind, room) in kinds.iter().zip(rooms) {
            self.argument(*kind, room, depth - 1);
        }
    }

    /// One of some functions, the next one in turn if that is wanted.
    fn callee(&mut self, callees: &[usize]) -> usize {
        if !self.climb || self.random.one_in(8) {
            return self.random.pick(callees);
        }
        let next = callees.iter().find(|callee| **callee > self.own);
        *next.unwrap_or(&callees[0])
    }

    /// An argument of a call.
    fn argument(&mut self, kind: Kind, room: usize, depth: usize) {
        let demand = Demand::Only(kind);
        let other = if self.climb { 10 } else { 2 };
        let tail = kind != Kind::Bool && room >= 2 && depth >= 2;
        match self.parameter(demand) {
            Some(byte) if tail && !self.random.one_in(other) => self.out.extend([TAIL, byte]),
            _ if self.climb || self.random.one_in(3) => self.leaf(demand),
            _ => self.expression(demand, room, depth),
        }
    }

    /// Cuts a room into parts of at least 1.
    fn split(&mut self, room: usize, parts: usize) -> Vec<usize> {
        let mut rooms = vec![1; parts];
        if parts == 0 {
            return rooms;
        }
        let mut spare = room - parts;
        for _ in 0..parts {
            let share = self.random.between(0, spare);
            let place = self.random.below(parts);
            rooms[place] += share;
            spare -= share;
        }
        rooms
    }

    /// So many nodes, each the first operand of the one before; gives what is demanded next.
    pub fn descent(&mut self, mut demand: Demand, nodes: usize) -> Demand {
        let shapes = self.shapes;
        for _ in 0..nodes {
            let callees = self.users(demand);
            match self.random.below(4) {
                0 => {
                    self.out.push(IF);
                    demand = BOOL;
                }
                1 if !callees.is_empty() => {
                    let callee = self.random.pick(&callees);
                    self.out.push(CALL + callee as u8);
                    demand = Demand::Only(shapes[callee].parameters[0]);
                }
                _ => demand = self.node_of_list(demand, &[NULL]),
            }
        }
        demand
    }

    /// A leaf of a kind that is not demanded.
    pub fn wrong_leaf(&mut self, demand: Demand) {
        let kinds = kinds(contacts(self.shapes)).iter().copied();
        let wrong: Vec<Kind> = kinds.filter(|kind| !demand.allows(*kind)).collect();
        let kind = self.random.pick(&wrong);
        self.leaf(Demand::Only(kind));
    }

    /// An expression exactly so deep, by one long branch through every sort of node.
    pub fn chain(&mut self, demand: Demand, depth: usize) {
        if depth == 1 {
            return self.leaf(demand);
        }
        match self.random.below(4) {
            0 => self.chain_if(demand, depth),
            1 => self.chain_call(demand, depth),
            _ => {
                let below = self.node_of_list(demand, &[HEAD, NULL]);
                self.chain(below, depth - 1);
            }
        }
    }

    /// An if whose condition or one of whose branches goes on.
    fn chain_if(&mut self, demand: Demand, depth: usize) {
        let long = self.random.below(3);
        self.out.push(IF);
        for (place, demand) in [BOOL, demand, demand].into_iter().enumerate() {
            match place == long {
                true => self.chain(demand, depth - 1),
                false => self.leaf(demand),
            }
        }
    }

    /// A call one of whose arguments goes on.
    fn chain_call(&mut self, demand: Demand, depth: usize) {
        let callees = self.users(demand);
        if callees.is_empty() {
            return self.chain_if(demand, depth);
        }
        let callee = self.random.pick(&callees);
        let shapes = self.shapes;
        let kinds = &shapes[callee].parameters;
        let long = self.random.below(kinds.len());
        self.out.push(CALL + callee as u8);
        for (place, kind) in kinds.iter().enumerate() {
            match place == long {
                true => self.chain(Demand::Only(*kind), depth - 1),
                false => self.leaf(Demand::Only(*kind)),
            }
        }
    }
}
