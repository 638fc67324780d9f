//! What stands beside a branch: small expressions, most of which have a value where the branch is taken.

use super::super::language::{BOOL, DEEPEST};
use super::super::oracle::program::{Demand, Kind, Value};
use super::super::random::Random;
use super::preview::{Preview, Told};
use super::writer::{constant, Shape, CALL, FALSE, HEAD, IF, NULL, PARAMETER, TAIL};

/// From so many bytes on, the rest of an expression is kept to leaves.
const LONG: usize = 50;
/// How often an expression is drawn that must have a value.
const DRAWS: usize = 8;

/// Writes expressions into one body.
pub struct Beside<'a> {
    pub random: &'a mut Random,
    pub preview: &'a Preview<'a>,
    pub own: usize,
    /// The values of the parameters where the branch is taken.
    pub values: Vec<Value>,
    /// All is kept to leaves.
    pub plain: bool,
}

impl<'a> Beside<'a> {
    /// For the body of a function, with values drawn for its parameters.
    pub fn new(random: &'a mut Random, preview: &'a Preview<'a>, own: usize) -> Self {
        Beside {
            values: preview.values(random, own),
            random,
            preview,
            own,
            plain: false,
        }
    }

    /// Some of the functions with a result that a demand allows.
    pub fn callees(&self, demand: Demand, fits: impl Fn(usize, &Shape) -> bool) -> Vec<usize> {
        let shapes = self.preview.shapes.iter().enumerate();
        let callees =
            shapes.filter(|(callee, shape)| demand.allows(shape.result) && fits(*callee, shape));
        callees.map(|(callee, _)| callee).collect()
    }

    /// The bytes of the parameters that a demand allows.
    fn parameters(&self, demand: Demand) -> Vec<u8> {
        let kinds = &self.preview.shapes[self.own].parameters;
        let parameters = kinds.iter().zip(PARAMETER..);
        let allowed = parameters.filter(|(kind, _)| demand.allows(**kind));
        allowed.map(|(_, byte)| byte).collect()
    }

    /// Any small expression at a depth.
    pub fn any(&mut self, out: &mut Vec<u8>, demand: Demand, depth: usize) {
        if depth == DEEPEST || self.plain || out.len() > LONG {
            return self.leaf(out, demand);
        }
        match self.random.below(16) {
            0..=9 => self.leaf(out, demand),
            10..=13 => self.unary(out, demand, depth),
            14 => self.choice(out, demand, depth),
            _ => match self.callees(demand, |_, _| true) {
                callees if callees.is_empty() => self.leaf(out, demand),
                callees => {
                    let callee = self.random.pick(&callees);
                    self.call(out, callee, depth);
                }
            },
        }
    }

    /// A small expression that has a value, a wanted Bool if asked for; and that value.
    pub fn valued(
        &mut self,
        out: &mut Vec<u8>,
        demand: Demand,
        depth: usize,
        want: Option<bool>,
    ) -> Told {
        let start = out.len();
        for _ in 0..DRAWS {
            self.any(out, demand, depth);
            let told = self.preview.expression(&out[start..], &self.values);
            match told {
                Told::Value(value) if want.is_none_or(|want| Value::Bool(want) == value) => {
                    return told
                }
                _ => out.truncate(start),
            }
        }
        match want {
            Some(want) => out.push(FALSE + u8::from(want)),
            None => self.constant(out, demand),
        }
        self.preview.expression(&out[start..], &self.values)
    }

    /// A small expression that seldom lacks a value; and what it comes to.
    pub fn mostly_valued(&mut self, out: &mut Vec<u8>, demand: Demand, depth: usize) -> Told {
        if !self.random.one_in(16) {
            return self.valued(out, demand, depth, None);
        }
        let start = out.len();
        self.any(out, demand, depth);
        self.preview.expression(&out[start..], &self.values)
    }

    /// Two branches of an if, mostly leaves that differ in value; and what they come to.
    pub fn branches(&mut self, out: &mut Vec<u8>, demand: Demand, depth: usize) -> Vec<Told> {
        if self.random.one_in(3) {
            let first = self.mostly_valued(out, demand, depth);
            return vec![first, self.mostly_valued(out, demand, depth)];
        }
        let mut leaves = match demand {
            BOOL => vec![FALSE, FALSE + 1],
            _ => vec![constant(self.random, self.preview.shapes, demand)],
        };
        leaves.extend(self.parameters(demand));
        let told = |leaf: &u8| self.preview.expression(&[*leaf], &self.values);
        let mut leaves: Vec<(u8, Told)> = leaves.iter().map(|leaf| (*leaf, told(leaf))).collect();
        let first = self.random.pick(&leaves);
        if leaves.iter().any(|leaf| leaf.1 != first.1) {
            leaves.retain(|leaf| leaf.1 != first.1);
        }
        let second = self.random.pick(&leaves);
        out.extend([first.0, second.0]);
        vec![first.1, second.1]
    }

    /// Two branches of an if; now and then what seldom has a value.
    pub fn any_branches(&mut self, out: &mut Vec<u8>, demand: Demand, depth: usize) {
        if !self.random.one_in(4) {
            self.branches(out, demand, depth);
            return;
        }
        for _ in 0..2 {
            let partial = self.callees(demand, |callee, _| !self.preview.is_total(callee));
            match depth == DEEPEST || partial.is_empty() {
                true => self.any(out, demand, depth),
                false => {
                    let callee = self.random.pick(&partial);
                    self.call(out, callee, depth);
                }
            }
        }
    }

    /// Nodes one below the other, the last one's operand a parameter of a kind.
    pub fn of_parameter(&mut self, out: &mut Vec<u8>, nodes: &[u8], kind: Kind) {
        out.extend(nodes);
        let parameters = self.parameters(Demand::Only(kind));
        out.push(self.random.pick(&parameters));
    }

    /// hd, tl or null at a depth of a list, for a demand, that is no parameter.
    pub fn of_other(&mut self, out: &mut Vec<u8>, node: u8, demand: Demand, depth: usize) {
        out.push(node);
        self.other(out, demand, depth + 1);
    }

    /// A list that is no parameter, or a condition that is neither a parameter nor the hd or null of one.
    pub fn other(&mut self, out: &mut Vec<u8>, demand: Demand, depth: usize) {
        if depth == DEEPEST {
            return self.constant(out, demand);
        }
        let callees = self.callees(demand, |_, shape| shape.parameters.len() < 3);
        match self.random.below(8) {
            0..=2 if demand == BOOL => {
                let node = self.random.pick(&[HEAD, NULL]);
                self.of_other(out, node, Demand::Either, depth);
            }
            0..=2 => {
                out.push(TAIL);
                self.any(out, demand, depth + 1);
            }
            3 | 4 => self.choice(out, demand, depth),
            5 | 6 if !callees.is_empty() => {
                let callee = self.random.pick(&callees);
                self.call(out, callee, depth);
            }
            _ => self.constant(out, demand),
        }
    }

    /// A call at a depth with any arguments.
    pub fn call(&mut self, out: &mut Vec<u8>, callee: usize, depth: usize) {
        out.push(CALL + callee as u8);
        let shapes = self.preview.shapes;
        for kind in &shapes[callee].parameters {
            self.any(out, Demand::Only(*kind), depth + 1);
        }
    }

    /// A parameter, a constant or a call without arguments.
    fn leaf(&mut self, out: &mut Vec<u8>, demand: Demand) {
        if self.random.one_in(6) {
            let callees = self.callees(demand, |_, shape| shape.parameters.is_empty());
            if !callees.is_empty() {
                return out.push(CALL + self.random.pick(&callees) as u8);
            }
        }
        let parameters = self.parameters(demand);
        if parameters.is_empty() || self.random.one_in(5) {
            return self.constant(out, demand);
        }
        out.push(self.random.pick(&parameters));
    }

    fn constant(&mut self, out: &mut Vec<u8>, demand: Demand) {
        out.push(constant(self.random, self.preview.shapes, demand));
    }

    /// hd, tl or null of a parameter, or of its tl.
    fn unary(&mut self, out: &mut Vec<u8>, demand: Demand, depth: usize) {
        let (node, below) = match demand {
            BOOL => (self.random.pick(&[HEAD, NULL]), Demand::Either),
            _ => (TAIL, demand),
        };
        let parameters = self.parameters(below);
        if parameters.is_empty() {
            return self.leaf(out, demand);
        }
        out.push(node);
        if depth + 2 <= DEEPEST && self.random.one_in(4) {
            out.push(TAIL);
        }
        out.push(self.random.pick(&parameters));
    }

    fn choice(&mut self, out: &mut Vec<u8>, demand: Demand, depth: usize) {
        out.push(IF);
        self.any(out, BOOL, depth + 1);
        self.any(out, demand, depth + 1);
        self.any(out, demand, depth + 1);
    }
}
