//! Programs whose calls only loop: each is a whole body, or a branch of an if in such a place.

use super::super::language::{BOOL, DEEPEST};
use super::super::oracle::program::{self, Contacts, Demand, Kind};
use super::super::random::Random;
use super::damage;
use super::programs::{self, Draft, MOST_BODY, MOST_BYTES};
use super::writer::{
    constant, empty, plain, Shape, CALL, EMPTY, FALSE, HEAD, IF, NULL, PARAMETER, TAIL,
};

/// The most bytes of an expression without calls that is drawn without a plan.
const ANY: usize = 6;
/// The most nodes, one below the other, of a condition or an argument that is planned.
const PLANNED: usize = 3;

/// Whether there is room for them at a depth.
fn planned(depth: usize) -> bool {
    depth + PLANNED <= DEEPEST + 1
}

/// Writes one body.
pub struct Loop<'a> {
    pub random: &'a mut Random,
    pub shapes: &'a [Shape],
    pub own: usize,
    /// The lists that are known not to be empty.
    full: Vec<usize>,
    /// Tests stand one below the other, down to the greatest depth if there are so many.
    spine: bool,
    pub out: Vec<u8>,
}

/// A program whose calls only loop, one in so many damaged.
pub fn any(random: &mut Random, contacts: Contacts, damaged_in: usize) -> Vec<u8> {
    let draft = draft(random, contacts);
    if random.one_in(damaged_in) {
        return damage::finished(random, draft, 1);
    }
    let bytes = draft.bytes();
    let checked = program::check_for(contacts, &bytes);
    assert!(checked.is_ok(), "refused: {bytes:02x?}");
    bytes
}

/// A well-formed program whose calls only loop.
fn draft(random: &mut Random, contacts: Contacts) -> Draft {
    let shapes = shapes(random, contacts);
    let mut room = MOST_BYTES - 1 - contacts.header() * shapes.len();
    let mut bodies = Vec::new();
    for own in 0..shapes.len() {
        let later = shapes.len() - own - 1;
        let tests = match random.below(40) {
            0 => random.between(10, 200),
            _ => random.pick(&[0, 1, 1, 2, 2, 2, 3, 4, 6]),
        };
        let body = body(random, &shapes, own, tests, MOST_BODY.min(room - later));
        room -= body.len();
        bodies.push(body);
    }
    Draft::new(contacts, &shapes, bodies)
}

/// Kinds for a program, main first. Main can come only to functions that give a Bool, as most do.
fn shapes(random: &mut Random, contacts: Contacts) -> Vec<Shape> {
    let count = match random.below(20) {
        0..=4 => 1,
        5..=8 => 2,
        9..=14 => random.between(3, 4),
        15..=18 => random.between(5, 9),
        _ => 32,
    };
    let lists = random.pick(&[0, 1, 1, 1, 2, 2, 3]);
    let mut shapes = vec![Shape::main(contacts)];
    for _ in 1..count {
        let mut shape = programs::shape(random, contacts, lists);
        if !random.one_in(8) {
            shape.result = Kind::Bool;
        }
        shapes.push(shape);
    }
    shapes
}

/// A body of about so many tests and at most so many bytes, whose calls only loop.
pub fn body(
    random: &mut Random,
    shapes: &[Shape],
    own: usize,
    mut tests: usize,
    most: usize,
) -> Vec<u8> {
    let result = Demand::Only(shapes[own].result);
    loop {
        let mut body = Loop::new(random, shapes, own);
        body.place(tests, 1);
        if body.out.len() <= most {
            return body.out;
        }
        if tests == 0 {
            return vec![constant(random, shapes, result)];
        }
        tests /= 2;
    }
}

impl<'a> Loop<'a> {
    pub fn new(random: &'a mut Random, shapes: &'a [Shape], own: usize) -> Self {
        Loop {
            spine: random.one_in(3),
            random,
            shapes,
            own,
            full: Vec::new(),
            out: Vec::new(),
        }
    }

    fn result(&self) -> Demand {
        Demand::Only(self.shapes[self.own].result)
    }

    /// What stands where calls loop, its first node at a depth: some tests, one below the other or side by side, and what
    /// they lead to.
    pub fn place(&mut self, tests: usize, depth: usize) {
        if tests == 0 || depth == DEEPEST {
            return self.end(depth, false);
        }
        self.out.push(IF);
        let emptiness = self.condition(depth + 1);
        let any = self.random.between(0, tests - 1);
        let first = match self.spine {
            true => self.random.pick(&[0, 0, tests - 1]),
            false => any,
        };
        match first {
            0 => self.end(depth + 1, emptiness.is_some()),
            _ => self.place(first, depth + 1),
        }
        self.full.extend(emptiness);
        self.place(tests - 1 - first, depth + 1);
        if emptiness.is_some() {
            self.full.pop();
        }
    }

    /// The bytes of the parameters that a demand allows, with their numbers.
    fn parameters(&self, demand: Demand) -> Vec<(usize, u8)> {
        let kinds = self.shapes[self.own].parameters.iter();
        let allowed = kinds.enumerate().filter(|(_, kind)| demand.allows(**kind));
        allowed
            .map(|(which, _)| (which, PARAMETER + which as u8))
            .collect()
    }

    /// A condition, seldom one that errs. If it asks whether a list is empty, that list.
    fn condition(&mut self, depth: usize) -> Option<usize> {
        let mut ways: Vec<(Vec<u8>, Option<usize>)> = Vec::new();
        for (_, byte) in self.parameters(BOOL) {
            ways.push((vec![byte], None));
        }
        if !planned(depth) {
            ways.push((vec![FALSE + self.random.below(2) as u8], None));
        } else {
            for (which, byte) in self.parameters(Demand::Either) {
                if self.full.contains(&which) || self.random.one_in(24) {
                    ways.push((vec![HEAD, byte], None));
                    ways.push((vec![NULL, TAIL, byte], None));
                } else {
                    ways.push((vec![NULL, byte], Some(which)));
                    ways.push((vec![NULL, byte], Some(which)));
                }
            }
        }
        if ways.is_empty() || self.random.one_in(12) {
            self.plain(BOOL, depth);
            return None;
        }
        let way = self.random.below(ways.len());
        let (bytes, emptiness) = ways.swap_remove(way);
        self.out.extend(bytes);
        emptiness
    }

    /// An expression without calls at a depth.
    pub fn plain(&mut self, demand: Demand, depth: usize) {
        let room = self.random.between(1, ANY);
        let deep = (room, DEEPEST + 1 - depth);
        let bytes = plain(self.random, self.shapes, self.own, demand, deep);
        self.out.extend(bytes);
    }

    /// What a test leads to: mostly a call, but after an empty list mostly an outcome.
    fn end(&mut self, depth: usize, after_empty: bool) {
        let calls = if after_empty { 1 } else { 4 };
        match self.random.below(6) {
            draw if draw < calls => self.call(depth),
            5 => self.plain(self.result(), depth),
            _ => self.leaf(self.shapes[self.own].result),
        }
    }

    /// A parameter or a constant.
    fn leaf(&mut self, kind: Kind) {
        let parameters = self.parameters(Demand::Only(kind));
        let byte = match parameters.is_empty() || self.random.one_in(3) {
            true => constant(self.random, self.shapes, Demand::Only(kind)),
            false => self.random.pick(&parameters).1,
        };
        self.out.push(byte);
    }

    /// A call at a depth: of this function, of the next one that it may be, or of any.
    fn call(&mut self, depth: usize) {
        let shapes = self.shapes;
        let result = shapes[self.own].result;
        let fits = |callee: &usize| {
            let shape = &shapes[*callee];
            shape.result == result && (depth < DEEPEST || shape.parameters.is_empty())
        };
        let callees: Vec<usize> = (0..shapes.len()).filter(fits).collect();
        let next = callees.iter().find(|callee| **callee > self.own);
        let next = next.or(callees.first()).copied();
        let Some(next) = next else {
            return self.leaf(result);
        };
        let any = self.random.pick(&callees);
        let own = if fits(&self.own) { self.own } else { next };
        let callee = self.random.pick(&[own, own, next, next, any]);
        self.call_of(callee, depth);
    }

    /// A call of a function at a depth; in some an argument errs, or two in different ways.
    pub fn call_of(&mut self, callee: usize, depth: usize) {
        let kinds = &self.shapes[callee].parameters;
        let mut erring = vec![None; kinds.len()];
        if !kinds.is_empty() && planned(depth + 1) && self.random.one_in(12) {
            let head = self.random.one_in(2);
            erring[self.random.below(kinds.len())] = Some(head);
            erring[self.random.below(kinds.len())] = Some(!head);
        }
        self.out.push(CALL + callee as u8);
        for (kind, erring) in kinds.iter().zip(erring) {
            match erring {
                Some(head) => self.out.extend(error(*kind, head)),
                None => self.argument(*kind, depth + 1),
            }
        }
    }

    /// An argument at a depth: of a list mostly a tl, of a Bool often the opposite of one.
    fn argument(&mut self, kind: Kind, depth: usize) {
        if !planned(depth) {
            return self.leaf(kind);
        }
        let parameters = self.parameters(Demand::Only(kind));
        let draw = self.random.below(16);
        if parameters.is_empty() || draw == 0 {
            return self.plain(Demand::Only(kind), depth);
        }
        let (which, byte) = self.random.pick(&parameters);
        let full = self.full.contains(&which) || draw == 1;
        match (kind, draw) {
            (Kind::List(_), 1..=11) if full => self.out.extend([TAIL, byte]),
            (Kind::List(contact), 15) => self.out.push(empty(contact)),
            (Kind::Bool, 1..=5) => self.out.extend([IF, byte, FALSE, FALSE + 1]),
            (Kind::Bool, 6..=8) => self.out.push(FALSE + self.random.below(2) as u8),
            _ => self.out.push(byte),
        }
    }
}

/// An expression of a kind that errs, by an empty head or an empty tail.
pub fn error(kind: Kind, head: bool) -> Vec<u8> {
    match (kind, head) {
        (Kind::Bool, true) => vec![HEAD, EMPTY],
        (Kind::Bool, false) => vec![NULL, TAIL, EMPTY],
        (Kind::List(of), true) => vec![IF, HEAD, EMPTY, empty(of), empty(of)],
        (Kind::List(of), false) => vec![TAIL, empty(of)],
    }
}
