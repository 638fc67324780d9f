//! Wide expressions of an exact length: calls of calls with as many arguments as there are, and ifs.

use super::super::language::BOOL;
use super::super::oracle::program::{Demand, Value};
use super::super::random::Random;
use super::preview::{Preview, Told};
use super::writer::{constant, CALL, HEAD, IF, NULL, PARAMETER, TAIL};

/// From this depth on, operands are about equally long, so that no depth is too great.
const DEEP: usize = 30;
/// How often a short expression is drawn until it has a value, and how long it is at most.
const DRAWS: usize = 6;
const SHORT: usize = 4;

/// Writes one expression.
pub struct Exact<'a> {
    pub random: &'a mut Random,
    pub preview: &'a Preview<'a>,
    /// The functions that may be called.
    pub callees: &'a [usize],
    pub own: usize,
    /// Values of the parameters on which most short expressions have a value.
    pub values: Vec<Value>,
    /// A short expression is being drawn.
    pub drawing: bool,
    pub out: Vec<u8>,
}

impl Exact<'_> {
    /// An expression of exactly so many bytes; its first node stands at the given depth.
    pub fn expression(&mut self, demand: Demand, length: usize, depth: usize) {
        if self.drawing || length == 1 || length > SHORT {
            return self.draw(demand, length, depth);
        }
        let start = self.out.len();
        self.drawing = true;
        for _ in 0..DRAWS {
            self.out.truncate(start);
            self.draw(demand, length, depth);
            let told = self.preview.expression(&self.out[start..], &self.values);
            if matches!(told, Told::Value(_)) {
                break;
            }
        }
        self.drawing = false;
    }

    fn draw(&mut self, demand: Demand, length: usize, depth: usize) {
        if length == 1 {
            return self.leaf(demand);
        }
        let callees = self.widest(demand, length, depth);
        match self.random.below(4) {
            1.. if !callees.is_empty() => {
                let callee = self.random.pick(&callees);
                self.out.push(CALL + callee as u8);
                let kinds = self.preview.shapes[callee].parameters.iter();
                let demands: Vec<Demand> = kinds.copied().map(Demand::Only).collect();
                self.operands(&demands, length - 1, depth + 1);
            }
            _ if length < 4 => {
                let (node, below) = match demand {
                    BOOL => (self.random.pick(&[NULL, HEAD]), Demand::Either),
                    _ => (TAIL, demand),
                };
                self.unary(node, below, length, depth);
            }
            _ if demand == BOOL && depth < DEEP && self.random.one_in(4) => {
                self.unary(NULL, Demand::Either, length, depth);
            }
            _ => {
                self.out.push(IF);
                self.operands(&[BOOL, demand, demand], length - 1, depth + 1);
            }
        }
    }

    fn unary(&mut self, node: u8, below: Demand, length: usize, depth: usize) {
        self.out.push(node);
        self.expression(below, length - 1, depth + 1);
    }

    /// Operands for some demands, together of a length.
    fn operands(&mut self, demands: &[Demand], length: usize, depth: usize) {
        let lengths = match depth < DEEP && self.random.one_in(3) {
            true => self.uneven(length, demands.len()),
            false => even(length, demands.len()),
        };
        for (demand, length) in demands.iter().zip(lengths) {
            self.expression(*demand, length, depth);
        }
    }

    /// A length in parts of any lengths.
    fn uneven(&mut self, length: usize, parts: usize) -> Vec<usize> {
        let mut lengths = vec![1; parts];
        let mut spare = length - parts;
        for part in lengths.iter_mut().skip(1) {
            let share = self.random.between(0, spare);
            *part += share;
            spare -= share;
        }
        lengths[0] += spare;
        self.random.shuffle(&mut lengths);
        lengths
    }

    /// The functions with a result that is demanded and the most arguments for which there is room; at times any.
    fn widest(&mut self, demand: Demand, length: usize, depth: usize) -> Vec<usize> {
        let shapes = self.preview.shapes;
        let count = |callee: &usize| shapes[*callee].parameters.len();
        let least = 1 + usize::from(depth >= DEEP && length > SHORT);
        let fits = |callee: &usize| {
            demand.allows(shapes[*callee].result) && (least..length).contains(&count(callee))
        };
        let mut callees: Vec<usize> = self.callees.iter().copied().filter(fits).collect();
        if !self.random.one_in(4) {
            let most = callees.iter().map(count).max();
            callees.retain(|callee| Some(count(callee)) == most);
        }
        callees
    }

    /// A parameter or a constant.
    fn leaf(&mut self, demand: Demand) {
        let kinds = self.preview.shapes[self.own].parameters.iter();
        let fitting = kinds
            .zip(PARAMETER..)
            .filter(|(kind, _)| demand.allows(**kind));
        let parameters: Vec<u8> = fitting.map(|(_, byte)| byte).collect();
        let byte = match parameters.is_empty() || self.random.one_in(4) {
            true => constant(self.random, self.preview.shapes, demand),
            false => self.random.pick(&parameters),
        };
        self.out.push(byte);
    }
}

/// A length in about equal parts.
fn even(length: usize, parts: usize) -> Vec<usize> {
    (0..parts).map(|part| (length + part) / parts).collect()
}
