//! What an expression comes to on given values, as far as its writer can tell: calls of functions that are
//! total can be told, others cannot.

use super::super::oracle::program::{Contact, Kind, Value};
use super::super::oracle::trace::Samples;
use super::super::random::Random;
use super::writer::{Shape, CALL, EMPTY, HEAD, IF, NULL, PARAMETER, TAIL};

/// What is told of an expression.
#[derive(Clone, Copy, PartialEq, Eq, Debug)]
pub enum Told {
    Value(Value),
    Error,
    Unknown,
}

/// The program so far, on samples.
pub struct Preview<'a> {
    pub shapes: &'a [Shape],
    /// The bodies of the total functions; the others are empty.
    pub total: &'a [Vec<u8>],
    pub samples: &'a Samples,
}

impl Preview<'_> {
    /// Values for a function's parameters; lists are seldom empty.
    pub fn values(&self, random: &mut Random, own: usize) -> Vec<Value> {
        let kinds = self.shapes[own].parameters.iter();
        let values = kinds.map(|kind| match kind {
            Kind::List(contact) => {
                let n = self.samples.of(*contact).len();
                let some = random.between(n.min(1), n);
                let length = if random.one_in(4) { 0 } else { some };
                Value::Suffix(*contact, length as u16)
            }
            Kind::Bool => Value::Bool(random.one_in(2)),
        });
        values.collect()
    }

    /// Whether a function has a value on all arguments.
    pub fn is_total(&self, function: usize) -> bool {
        !self.total[function].is_empty()
    }

    /// What an expression comes to.
    pub fn expression(&self, bytes: &[u8], values: &[Value]) -> Told {
        self.take(&mut &*bytes, values)
    }

    /// What a call on given arguments comes to.
    pub fn call(&self, callee: usize, arguments: &[Value]) -> Told {
        match self.is_total(callee) {
            true => self.expression(&self.total[callee], arguments),
            false => Told::Unknown,
        }
    }

    /// What hd, tl or null of a list comes to.
    pub fn unary(&self, node: u8, list: Value) -> Told {
        let Value::Suffix(contact, length) = list else {
            unreachable!("a list is demanded");
        };
        let samples = self.samples.of(contact);
        match (node, length) {
            (NULL, _) => Told::Value(Value::Bool(length == 0)),
            (_, 0) => Told::Error,
            (HEAD, _) => Told::Value(Value::Bool(samples[samples.len() - usize::from(length)])),
            _ => Told::Value(Value::Suffix(contact, length - 1)),
        }
    }

    /// Takes the expression at the front of some bytes, and drops it.
    fn take(&self, bytes: &mut &[u8], values: &[Value]) -> Told {
        let byte = bytes[0];
        *bytes = &bytes[1..];
        match byte {
            PARAMETER..HEAD => Told::Value(values[usize::from(byte - PARAMETER)]),
            HEAD | TAIL | NULL => match self.take(bytes, values) {
                Told::Value(list) => self.unary(byte, list),
                stop => stop,
            },
            IF => self.choice(bytes, values),
            CALL.. => self.arguments(usize::from(byte - CALL), bytes, values),
            EMPTY => Told::Value(Value::Suffix(Contact::Ram, 0)),
            ..EMPTY => Told::Value(Value::Bool(byte == 1)),
            _ => Told::Value(Value::Suffix(Contact::Guard, 0)),
        }
    }

    fn choice(&self, bytes: &mut &[u8], values: &[Value]) -> Told {
        match self.take(bytes, values) {
            Told::Value(Value::Bool(false)) => {
                self.skip(bytes);
                self.take(bytes, values)
            }
            Told::Value(_) => {
                let taken = self.take(bytes, values);
                self.skip(bytes);
                taken
            }
            stop => {
                self.skip(bytes);
                self.skip(bytes);
                stop
            }
        }
    }

    /// Drops the expression at the front of some bytes.
    fn skip(&self, bytes: &mut &[u8]) {
        let mut due = 1;
        while due > 0 {
            due -= 1;
            due += match bytes[0] {
                HEAD | TAIL | NULL => 1,
                IF => 3,
                byte @ CALL.. => self.shapes[usize::from(byte - CALL)].parameters.len(),
                _ => 0,
            };
            *bytes = &bytes[1..];
        }
    }

    fn arguments(&self, callee: usize, bytes: &mut &[u8], values: &[Value]) -> Told {
        let mut arguments = Vec::new();
        let mut stop = None;
        for _ in &self.shapes[callee].parameters {
            match self.take(bytes, values) {
                Told::Value(value) => arguments.push(value),
                told => stop = stop.or(Some(told)),
            }
        }
        stop.unwrap_or_else(|| self.call(callee, &arguments))
    }
}
