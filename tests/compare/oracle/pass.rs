//! Single passes over a table with any content, from the words of 'Table and passes' in document 01.

use super::program::{Function, Kind, Step, Value};
use super::search::{configurations, radix};
use super::trace::Samples;

/// What a cell holds for a function's kind.
enum Held {
    Undecided,
    Error,
    Value(Value),
}

/// What a pass works with: a program on samples, and where its functions' cells begin.
struct Pass<'a> {
    functions: &'a [Function],
    samples: &'a Samples,
    starts: Vec<usize>,
}

/// Makes one pass: visits undecided cells in rising order, and answers how many outcomes it stored.
pub fn once(functions: &[Function], samples: &Samples, table: &mut [u16]) -> u64 {
    let pass = Pass::new(functions, samples);
    let mut stored = 0;
    for function in 0..functions.len() {
        for place in 0..configurations(&functions[function], samples) {
            let cell = pass.starts[function] + place as usize;
            if !matches!(pass.held(function, table[cell]), Held::Undecided) {
                continue;
            }
            if let Some(outcome) = pass.outcome(function, &pass.values(function, place), table) {
                table[cell] = outcome;
                stored += 1;
            }
        }
    }
    stored
}

/// Makes passes from the zeros until one stores nothing, and answers its number.
pub fn all(functions: &[Function], samples: &Samples, cells: &mut [u16]) -> u32 {
    cells.fill(0);
    (1..)
        .find(|_| once(functions, samples, cells) == 0)
        .expect("a pass stores nothing at last")
}

impl<'a> Pass<'a> {
    fn new(functions: &'a [Function], samples: &'a Samples) -> Self {
        let mut starts = Vec::new();
        let mut next = 0;
        for function in functions {
            starts.push(next);
            next += configurations(function, samples) as usize;
        }
        Pass {
            functions,
            samples,
            starts,
        }
    }

    /// What a cell of a function holds: an outcome of its kind, or nothing.
    fn held(&self, function: usize, cell: u16) -> Held {
        let result = self.functions[function].result;
        if matches!(cell, 3 | 4) {
            return Held::Error;
        }
        let lowest = result.value(0).cell();
        match cell.checked_sub(lowest) {
            Some(digit) if u64::from(digit) < radix(result, self.samples) => {
                Held::Value(result.value(digit))
            }
            _ => Held::Undecided,
        }
    }

    /// The values of the parameters in a function's configuration, parameter 0 the most significant.
    fn values(&self, function: usize, mut place: u64) -> Vec<Value> {
        let mut values = Vec::new();
        for kind in self.functions[function].parameters.iter().rev() {
            let radix = radix(*kind, self.samples);
            values.insert(0, kind.value((place % radix) as u16));
            place /= radix;
        }
        values
    }

    /// The cell of a function on values.
    fn cell(&self, function: usize, values: &[Value]) -> usize {
        let kinds = self.functions[function].parameters.iter();
        let digit = |place: usize, (kind, value): (&Kind, &Value)| {
            place * radix(*kind, self.samples) as usize + usize::from(value.digit())
        };
        self.starts[function] + kinds.zip(values).fold(0, digit)
    }

    /// The cell's number for the outcome of a function's body, with calls looked up in the table.
    fn outcome(&self, function: usize, values: &[Value], table: &[u16]) -> Option<u16> {
        let steps = &self.functions[function].steps;
        let mut stack: Vec<Value> = Vec::new();
        let mut at = 0;
        while let Some(step) = steps.get(at) {
            at += 1;
            match *step {
                Step::Constant(value) => stack.push(value),
                Step::Parameter(place) => stack.push(values[place]),
                Step::Go(target) => at = target,
                Step::Unless(target) => {
                    if stack.pop()? == Value::Bool(false) {
                        at = target;
                    }
                }
                Step::Null => {
                    let length = stack.pop()?.digit();
                    stack.push(Value::Bool(length == 0));
                }
                Step::Head => match stack.pop()? {
                    Value::Suffix(contact, length @ 1..) => {
                        let samples = self.samples.of(contact);
                        let sample = samples[samples.len() - usize::from(length)];
                        stack.push(Value::Bool(sample));
                    }
                    _ => return Some(3),
                },
                Step::Tail => match stack.pop()? {
                    Value::Suffix(contact, length @ 1..) => {
                        stack.push(Value::Suffix(contact, length - 1));
                    }
                    _ => return Some(4),
                },
                Step::Call(callee) => {
                    let first = stack.len() - self.functions[callee].parameters.len();
                    let cell = table[self.cell(callee, &stack.split_off(first))];
                    match self.held(callee, cell) {
                        Held::Undecided => return None,
                        Held::Error => return Some(cell),
                        Held::Value(value) => stack.push(value),
                    }
                }
            }
        }
        Some(stack.pop()?.cell())
    }
}
