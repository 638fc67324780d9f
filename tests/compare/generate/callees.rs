//! Bodies for functions that are called: total ones, which have a value on all arguments and mostly tell them
//! apart, and others, which meet errors, wait for each other or never end.

use super::super::oracle::program::{Demand, Kind};
use super::super::random::Random;
use super::writer::{constant, empty, Shape, CALL, FALSE, HEAD, IF, NULL, PARAMETER, TAIL};

/// Writes one body: tests on each parameter in turn, with something short at the end of each way.
pub struct Callee<'a> {
    pub random: &'a mut Random,
    pub shapes: &'a [Shape],
    pub own: usize,
    /// The functions that may be called.
    pub callees: Vec<usize>,
    pub total: bool,
    /// The lists that are known not to be empty.
    pub full: Vec<usize>,
    pub out: Vec<u8>,
}

impl Callee<'_> {
    pub fn body(&mut self) {
        let mut order: Vec<usize> = (0..self.shapes[self.own].parameters.len()).collect();
        self.random.shuffle(&mut order);
        self.tests(&order);
    }

    /// Tests on some parameters, and the ends of all ways.
    fn tests(&mut self, order: &[usize]) {
        let [which, rest @ ..] = order else {
            return self.end();
        };
        let byte = PARAMETER + *which as u8;
        if self.shapes[self.own].parameters[*which] == Kind::Bool {
            self.out.extend([IF, byte]);
            return self.ways(rest);
        }
        self.out.extend([IF, NULL, byte]);
        self.tests(rest);
        self.full.push(*which);
        if rest.len() < 2 && self.random.one_in(2) {
            self.out.extend([IF, HEAD, byte]);
            self.ways(rest);
        } else {
            self.tests(rest);
        }
        self.full.pop();
    }

    /// Both ways after a test; a Bool's last ways are often opposite.
    fn ways(&mut self, rest: &[usize]) {
        let result = self.shapes[self.own].result;
        if rest.is_empty() && result == Kind::Bool && self.random.one_in(2) {
            let first = self.random.below(2) as u8;
            return self.out.extend([FALSE + first, FALSE + 1 - first]);
        }
        self.tests(rest);
        self.tests(rest);
    }

    /// The end of a way.
    fn end(&mut self) {
        let result = self.shapes[self.own].result;
        if !self.callees.is_empty() && self.random.one_in(5) {
            return self.call();
        }
        let alone = self.shapes[self.own].parameters.is_empty();
        if !self.total && self.random.one_in(if alone { 2 } else { 4 }) {
            return self.fault();
        }
        self.leaf(result);
    }

    /// Something with a value: a constant, a parameter, or hd, tl or null of one that allows it.
    fn leaf(&mut self, wanted: Kind) {
        let mut ways = match wanted {
            Kind::Bool => vec![vec![FALSE], vec![FALSE + 1]],
            Kind::List(contact) => vec![vec![empty(contact)]],
        };
        for (which, kind) in self.shapes[self.own].parameters.iter().enumerate() {
            let byte = PARAMETER + which as u8;
            let is_list = *kind != Kind::Bool;
            if *kind == wanted {
                ways.push(vec![byte]);
            }
            if is_list && wanted == Kind::Bool {
                ways.push(vec![NULL, byte]);
            }
            if self.full.contains(&which) && wanted == Kind::Bool {
                ways.push(vec![HEAD, byte]);
            }
            if self.full.contains(&which) && wanted == *kind {
                ways.push(vec![TAIL, byte]);
            }
        }
        let way = self.random.below(ways.len());
        self.out.extend(&ways[way]);
    }

    /// A list for a demand: mostly a parameter, else empty.
    fn list(&mut self, demand: Demand) -> u8 {
        let parameters = (PARAMETER..).zip(&self.shapes[self.own].parameters);
        let lists = parameters.filter(|(_, kind)| demand.allows(**kind));
        let lists: Vec<u8> = lists.map(|(byte, _)| byte).collect();
        match lists.is_empty() || self.random.one_in(3) {
            true => constant(self.random, self.shapes, demand),
            false => self.random.pick(&lists),
        }
    }

    /// Head of empty, tail of empty, either by a parameter, or the function itself on the same values.
    fn fault(&mut self) {
        let Shape { parameters, result } = &self.shapes[self.own];
        let list = self.list(Demand::Either);
        match (self.random.below(4), result) {
            (0, Kind::Bool) => self.out.extend([HEAD, list]),
            (0, Kind::List(contact)) => {
                let own = self.list(Demand::Only(*result));
                self.out.extend([IF, HEAD, list, empty(*contact), own]);
            }
            (1, Kind::Bool) => self.out.extend([NULL, TAIL, list]),
            (1, Kind::List(_)) => {
                let own = self.list(Demand::Only(*result));
                self.out.extend([TAIL, own]);
            }
            _ => {
                self.out.push(CALL + self.own as u8);
                self.out
                    .extend((0..parameters.len()).map(|which| PARAMETER + which as u8));
            }
        }
    }

    /// A call of one of the functions of this result, on short arguments.
    fn call(&mut self) {
        let shapes = self.shapes;
        let result = shapes[self.own].result;
        let mut callees = self.callees.clone();
        callees.retain(|callee| shapes[*callee].result == result);
        if callees.is_empty() {
            return self.leaf(result);
        }
        let callee = self.random.pick(&callees);
        self.out.push(CALL + callee as u8);
        for kind in &shapes[callee].parameters {
            self.leaf(*kind);
        }
    }
}
