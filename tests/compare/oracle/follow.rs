//! Following the calls from main, from the words of request 03: an accepted body is a tree, and a loop takes main's, then
//! that of each function called, with no table.

use super::program::{Contact, Function, Value};
use super::search;
use super::trace::Samples;

/// The verdicts of a run that does not end, and of the errors.
const FOREVER: u8 = 0;
const HEAD_OF_EMPTY: u8 = 3;
const TAIL_OF_EMPTY: u8 = 4;

/// What following leaves.
#[derive(Clone, Copy, Debug, PartialEq, Eq)]
pub struct Followed {
    pub verdict: u8,
    pub calls: u64,
    /// The configurations of all functions.
    pub configurations: u64,
    /// A bit for each function whose body was taken.
    pub taken: u32,
    /// The outcome is the error of an argument, whose call is not counted.
    pub in_argument: bool,
}

/// The bodies of a program whose calls only loop.
pub struct Rules<'a> {
    functions: &'a [Function],
    bodies: Vec<Tree>,
}

enum Tree {
    Constant(Value),
    Parameter(usize),
    Head(Box<Tree>),
    Tail(Box<Tree>),
    Null(Box<Tree>),
    /// Condition and branches.
    If(Box<[Tree; 3]>),
    /// A function and its arguments.
    Call(usize, Vec<Tree>),
}

/// What comes of a body.
enum Turn {
    /// A verdict.
    Outcome(u8),
    /// The verdict of an error in an argument.
    ArgumentError(u8),
    /// A function, and the values of its arguments.
    Call(usize, Vec<Value>),
}

impl<'a> Rules<'a> {
    /// The bodies of accepted functions, if every call is a whole body, or a branch of an if in such a place.
    pub fn new(functions: &'a [Function]) -> Option<Self> {
        let body = |function: &Function| Tree::read(&mut &function.body[..], functions);
        let bodies: Vec<Tree> = functions.iter().map(body).collect();
        let only_loop = bodies.iter().all(Tree::only_loops);
        only_loop.then_some(Rules { functions, bodies })
    }

    /// Takes the bodies from main on the whole traces on. Taking main first is no call; where there were as many calls
    /// as configurations the last one's body is not taken.
    pub fn follow(&self, samples: &Samples) -> Followed {
        let contacts = samples.contacts().contacts().iter();
        let whole = |of: &Contact| Value::Suffix(*of, samples.of(*of).len() as u16);
        let mut own = 0;
        let mut values: Vec<Value> = contacts.map(whole).collect();
        let mut followed = Followed {
            verdict: FOREVER,
            calls: 0,
            configurations: search::cells_needed(self.functions, samples),
            taken: 0,
            in_argument: false,
        };
        while followed.calls < followed.configurations {
            followed.taken |= 1 << own;
            let turn = self.bodies[own].turn(&values, samples);
            followed.in_argument = matches!(turn, Turn::ArgumentError(_));
            match turn {
                Turn::Outcome(verdict) | Turn::ArgumentError(verdict) => {
                    followed.verdict = verdict;
                    break;
                }
                Turn::Call(callee, arguments) => {
                    followed.calls += 1;
                    (own, values) = (callee, arguments);
                }
            }
        }
        followed
    }
}

impl Tree {
    /// Reads the expression at the front of an accepted body's bytes, and drops it from them.
    fn read(bytes: &mut &[u8], functions: &[Function]) -> Tree {
        let byte = bytes[0];
        *bytes = &bytes[1..];
        let mut next = || Tree::read(bytes, functions);
        match byte {
            0x00 | 0x01 => Tree::Constant(Value::Bool(byte == 1)),
            0x02 => Tree::Constant(Value::Suffix(Contact::Ram, 0)),
            0x03 => Tree::Constant(Value::Suffix(Contact::Guard, 0)),
            0x10..=0x13 => Tree::Parameter(usize::from(byte - 0x10)),
            0x20 => Tree::Head(Box::new(next())),
            0x21 => Tree::Tail(Box::new(next())),
            0x22 => Tree::Null(Box::new(next())),
            0x23 => Tree::If(Box::new([next(), next(), next()])),
            _ => {
                let callee = usize::from(byte - 0x80);
                let parameters = functions[callee].parameters.iter();
                Tree::Call(callee, parameters.map(|_| next()).collect())
            }
        }
    }

    /// Whether no call stands in it.
    fn has_no_call(&self) -> bool {
        match self {
            Tree::Constant(_) | Tree::Parameter(_) => true,
            Tree::Head(list) | Tree::Tail(list) | Tree::Null(list) => list.has_no_call(),
            Tree::If(parts) => parts.iter().all(Tree::has_no_call),
            Tree::Call(..) => false,
        }
    }

    /// Whether every call in it is the whole of it, or a branch of an if in such a place.
    fn only_loops(&self) -> bool {
        match self {
            Tree::If(parts) => {
                let [condition, branches @ ..] = &**parts;
                condition.has_no_call() && branches.iter().all(Tree::only_loops)
            }
            Tree::Call(_, arguments) => arguments.iter().all(Tree::has_no_call),
            other => other.has_no_call(),
        }
    }

    /// What comes of a body on the values of its parameters.
    fn turn(&self, values: &[Value], samples: &Samples) -> Turn {
        match self {
            Tree::If(parts) => {
                let [condition, first, second] = &**parts;
                match condition.value(values, samples) {
                    Ok(Value::Bool(false)) => second.turn(values, samples),
                    Ok(_) => first.turn(values, samples),
                    Err(error) => Turn::Outcome(error),
                }
            }
            Tree::Call(callee, arguments) => {
                let mut given = Vec::new();
                for argument in arguments {
                    match argument.value(values, samples) {
                        Ok(value) => given.push(value),
                        Err(error) => return Turn::ArgumentError(error),
                    }
                }
                Turn::Call(*callee, given)
            }
            other => match other.value(values, samples) {
                Ok(value) => Turn::Outcome(value.cell() as u8),
                Err(error) => Turn::Outcome(error),
            },
        }
    }

    /// The value of an expression without calls, or the verdict of its error.
    fn value(&self, values: &[Value], samples: &Samples) -> Result<Value, u8> {
        match self {
            Tree::Constant(value) => Ok(*value),
            Tree::Parameter(which) => Ok(values[*which]),
            Tree::Head(operand) => match operand.list(values, samples)? {
                (_, 0) => Err(HEAD_OF_EMPTY),
                (contact, length) => {
                    let whole = samples.of(contact);
                    Ok(Value::Bool(whole[whole.len() - usize::from(length)]))
                }
            },
            Tree::Tail(operand) => match operand.list(values, samples)? {
                (_, 0) => Err(TAIL_OF_EMPTY),
                (contact, length) => Ok(Value::Suffix(contact, length - 1)),
            },
            Tree::Null(operand) => {
                let (_, length) = operand.list(values, samples)?;
                Ok(Value::Bool(length == 0))
            }
            Tree::If(parts) => {
                let [condition, first, second] = &**parts;
                match condition.value(values, samples)? {
                    Value::Bool(false) => second.value(values, samples),
                    _ => first.value(values, samples),
                }
            }
            Tree::Call(..) => unreachable!("calls only loop"),
        }
    }

    /// The value of an expression that is a list: its contact and its length.
    fn list(&self, values: &[Value], samples: &Samples) -> Result<(Contact, u16), u8> {
        match self.value(values, samples)? {
            Value::Suffix(contact, length) => Ok((contact, length)),
            Value::Bool(_) => unreachable!("a list is demanded"),
        }
    }
}
