//! The search for derivations: the outcome of each configuration, or none.
//!
//! A configuration is worked out on demand and remembered. One that comes to need itself, or one without an
//! outcome, has no finite derivation, and neither has any that waits for it.
//!
//! The passes follow from what was looked up: an outcome is stored in the first pass in which every cell its
//! derivation looks up is decided, a lower cell in the same pass, any other in an earlier one.

use super::program::{Function, Kind, Step, Value};
use super::trace::Samples;

/// What evaluating leaves.
pub struct Evaluation {
    /// All cells needed.
    pub cells: Vec<u16>,
    pub verdict: u8,
    pub passes: u32,
    /// How often passes visit a cell in all, a measure of the work.
    pub visits: u64,
}

/// How far a configuration is.
#[derive(Clone, Copy, PartialEq, Eq)]
enum Mark {
    Unseen,
    Open,
    Decided,
    Forever,
}

/// The outcome of a body.
enum Outcome {
    Value(Value),
    HeadOfEmpty,
    TailOfEmpty,
}

/// A configuration being worked out.
struct Frame {
    cell: usize,
    function: usize,
    arguments: [Value; 4],
    /// The next step of the body.
    at: usize,
    /// Where this frame's part of the value stack begins.
    floor: usize,
    /// The first pass in which all looked up so far is decided.
    pass: u32,
}

/// What comes of one step.
enum Turn {
    Next,
    Finished(Outcome),
    Wait(usize, usize),
    Forever,
}

/// All that is known of the configurations of one program on its samples.
struct Search<'a> {
    functions: &'a [Function],
    samples: &'a Samples,
    /// The first cell of each function.
    starts: Vec<usize>,
    cells: Vec<u16>,
    marks: Vec<Mark>,
    passes: Vec<u32>,
    frames: Vec<Frame>,
    values: Vec<Value>,
}

/// The number of values of a kind.
pub(super) fn radix(kind: Kind, samples: &Samples) -> u64 {
    match kind {
        Kind::Bool => 2,
        Kind::List(contact) => samples.of(contact).len() as u64 + 1,
    }
}

/// The number of configurations of a function.
pub(super) fn configurations(function: &Function, samples: &Samples) -> u64 {
    function
        .parameters
        .iter()
        .map(|kind| radix(*kind, samples))
        .product()
}

/// The cells needed on samples.
pub fn cells_needed(functions: &[Function], samples: &Samples) -> u64 {
    functions
        .iter()
        .map(|function| configurations(function, samples))
        .sum()
}

/// Main's cell on the whole traces: the last of main's cells.
pub fn main_cell(functions: &[Function], samples: &Samples) -> usize {
    configurations(&functions[0], samples) as usize - 1
}

/// Works out every configuration.
pub fn evaluate(functions: &[Function], samples: &Samples) -> Evaluation {
    let mut search = Search::new(functions, samples);
    let mut next = 0;
    for (place, function) in functions.iter().enumerate() {
        for _ in 0..configurations(function, samples) {
            search.settle(next, place);
            next += 1;
        }
    }
    search.evaluation()
}

impl<'a> Search<'a> {
    /// Nothing known yet.
    fn new(functions: &'a [Function], samples: &'a Samples) -> Self {
        let mut starts = Vec::new();
        let mut needed = 0;
        for function in functions {
            starts.push(needed);
            needed += configurations(function, samples) as usize;
        }
        Search {
            functions,
            samples,
            starts,
            cells: vec![0; needed],
            marks: vec![Mark::Unseen; needed],
            passes: vec![0; needed],
            frames: Vec::new(),
            values: Vec::new(),
        }
    }

    /// Finds out a cell and all it needs.
    fn settle(&mut self, cell: usize, function: usize) {
        if self.marks[cell] != Mark::Unseen {
            return;
        }
        self.open(cell, function);
        while !self.frames.is_empty() {
            match self.step() {
                Turn::Next => {}
                Turn::Finished(outcome) => self.close(outcome),
                Turn::Wait(cell, function) => self.open(cell, function),
                Turn::Forever => self.give_up(),
            }
        }
    }

    /// Begins a configuration.
    fn open(&mut self, cell: usize, function: usize) {
        self.marks[cell] = Mark::Open;
        self.frames.push(Frame {
            cell,
            function,
            arguments: self.arguments(cell, function),
            at: 0,
            floor: self.values.len(),
            pass: 1,
        });
    }

    /// The parameters' values in a cell of a function.
    fn arguments(&self, cell: usize, function: usize) -> [Value; 4] {
        let mut rest = (cell - self.starts[function]) as u64;
        let mut arguments = [Value::Bool(false); 4];
        for (place, kind) in self.functions[function].parameters.iter().enumerate().rev() {
            let radix = radix(*kind, self.samples);
            arguments[place] = kind.value((rest % radix) as u16);
            rest /= radix;
        }
        arguments
    }

    /// The cell of a function on the given values.
    fn cell(&self, function: usize, values: &[Value]) -> usize {
        let mut place = 0;
        for (kind, value) in self.functions[function].parameters.iter().zip(values) {
            place = place * radix(*kind, self.samples) + u64::from(value.digit());
        }
        self.starts[function] + place as usize
    }

    /// Takes one step of the newest frame.
    fn step(&mut self) -> Turn {
        let functions = self.functions;
        let frame = self.frames.last_mut().expect("a frame is open");
        let Some(step) = functions[frame.function].steps.get(frame.at) else {
            return Turn::Finished(Outcome::Value(self.take()));
        };
        if let Step::Call(callee) = *step {
            return self.call(callee);
        }
        frame.at += 1;
        match *step {
            Step::Constant(value) => self.values.push(value),
            Step::Parameter(place) => self.values.push(frame.arguments[place]),
            Step::Go(target) => frame.at = target,
            Step::Unless(target) => self.unless(target),
            Step::Null => self.null(),
            Step::Head => return self.head(),
            Step::Tail => return self.tail(),
            Step::Call(_) => unreachable!("calls are taken above"),
        }
        Turn::Next
    }

    /// Takes the newest value.
    fn take(&mut self) -> Value {
        self.values.pop().expect("a value is there")
    }

    /// Takes the newest value, a list: its samples, oldest first.
    fn take_list(&mut self) -> (Kind, &'a [bool]) {
        match self.take() {
            Value::Suffix(contact, length) => {
                let whole = self.samples.of(contact);
                let first = whole.len() - usize::from(length);
                (Kind::List(contact), &whole[first..])
            }
            Value::Bool(_) => unreachable!("a list is demanded"),
        }
    }

    fn unless(&mut self, target: usize) {
        if self.take() == Value::Bool(false) {
            self.frames.last_mut().expect("a frame is open").at = target;
        }
    }

    fn null(&mut self) {
        let (_, list) = self.take_list();
        self.values.push(Value::Bool(list.is_empty()));
    }

    fn head(&mut self) -> Turn {
        match self.take_list() {
            (_, []) => Turn::Finished(Outcome::HeadOfEmpty),
            (_, [sample, ..]) => self.put(Value::Bool(*sample)),
        }
    }

    fn tail(&mut self) -> Turn {
        match self.take_list() {
            (_, []) => Turn::Finished(Outcome::TailOfEmpty),
            (kind, [_, rest @ ..]) => self.put(kind.value(rest.len() as u16)),
        }
    }

    /// Looks a call up; an unknown one is worked out first and then looked up again.
    fn call(&mut self, callee: usize) -> Turn {
        let count = self.functions[callee].parameters.len();
        let first = self.values.len() - count;
        let cell = self.cell(callee, &self.values[first..]);
        match self.marks[cell] {
            Mark::Unseen => Turn::Wait(cell, callee),
            Mark::Open | Mark::Forever => Turn::Forever,
            Mark::Decided => {
                self.values.truncate(first);
                self.use_cell(cell, self.functions[callee].result)
            }
        }
    }

    /// Goes on with a decided cell's outcome, of a function with a result of a kind.
    fn use_cell(&mut self, cell: usize, result: Kind) -> Turn {
        let frame = self.frames.last_mut().expect("a frame is open");
        let pass = self.passes[cell] + u32::from(cell >= frame.cell);
        frame.pass = frame.pass.max(pass);
        frame.at += 1;
        match self.cells[cell] {
            3 => Turn::Finished(Outcome::HeadOfEmpty),
            4 => Turn::Finished(Outcome::TailOfEmpty),
            bool @ 1..=2 => self.put(result.value(bool - 1)),
            suffix => self.put(result.value(suffix - 5)),
        }
    }

    fn put(&mut self, value: Value) -> Turn {
        self.values.push(value);
        Turn::Next
    }

    /// Stores the outcome of the newest frame.
    fn close(&mut self, outcome: Outcome) {
        let frame = self.frames.pop().expect("a frame is open");
        self.values.truncate(frame.floor);
        self.marks[frame.cell] = Mark::Decided;
        self.passes[frame.cell] = frame.pass;
        self.cells[frame.cell] = match outcome {
            Outcome::HeadOfEmpty => 3,
            Outcome::TailOfEmpty => 4,
            Outcome::Value(value) => value.cell(),
        };
    }

    /// All open frames wait for one that never ends.
    fn give_up(&mut self) {
        for frame in self.frames.drain(..) {
            self.marks[frame.cell] = Mark::Forever;
        }
        self.values.clear();
    }

    /// Sums up when all is settled.
    fn evaluation(self) -> Evaluation {
        let passes = 1 + self.passes.iter().max().expect("main has a cell");
        let visits = self.passes.iter().map(|pass| match pass {
            0 => u64::from(passes),
            stored => u64::from(*stored),
        });
        Evaluation {
            verdict: self.cells[main_cell(self.functions, self.samples)] as u8,
            passes,
            visits: visits.sum(),
            cells: self.cells,
        }
    }
}
