//! Programs with one call that does not only loop, in a place that is given.

use super::super::language::{elsewhere, Elsewhere, Place, BOOL};
use super::super::oracle::program::{Contacts, Demand, Kind};
use super::super::random::Random;
use super::loops::{self, Loop};
use super::programs::{self, MOST_BODY};
use super::targets::Kinds;
use super::writer::{settled, Mix, Shape, CALL, HEAD, IF, NULL, TAIL};

/// How many places there are.
pub fn count(contacts: Contacts) -> usize {
    elsewhere(contacts).len()
}

/// Where the call stands in its body: through branches at first, where calls still loop, then anywhere.
struct Path {
    branches: Vec<Place>,
    places: Vec<Place>,
    /// The result of the body.
    result: Kind,
}

/// A program with a call in the place of that number, in main or in a function that main may never come to.
pub fn program(random: &mut Random, contacts: Contacts, number: usize) -> Vec<u8> {
    let path = Path::to(random, contacts, elsewhere(contacts)[number]);
    let mix = Mix { contacts, lists: 2 };
    let mut shapes = vec![Shape::main(contacts)];
    shapes.extend((0..random.below(3)).map(|_| Shape::any(random, mix)));
    for kinds in path.callees(random, contacts) {
        shapes.push(kinds.shape(random, mix));
    }
    if path.result != Kind::Bool || random.one_in(2) {
        let mut owner = Shape::any(random, mix);
        owner.result = path.result;
        shapes.push(owner);
    }
    random.shuffle(&mut shapes[1..]);
    let owners: Vec<usize> = (0..shapes.len())
        .filter(|own| shapes[*own].result == path.result)
        .collect();
    let owner = random.pick(&owners);
    let mut bodies = Vec::new();
    for own in 0..shapes.len() {
        let tests = random.below(4);
        bodies.push(match own == owner {
            true => path.body(random, contacts, &shapes, own),
            false => loops::body(random, &shapes, own, tests, MOST_BODY / 8),
        });
    }
    programs::of_parts(contacts, &shapes, bodies)
}

impl Path {
    /// A path to a place. Above it there may be others, of which only the first is an argument: its call loops.
    fn to(random: &mut Random, contacts: Contacts, to: Elsewhere) -> Self {
        let mut places: Vec<Place> = [to.place].into_iter().chain(to.branch).collect();
        let mut more: usize = random.pick(&[0, 0, 0, 1, 2, 3, 40]);
        let result = loop {
            let Some(above) = places[0].demand_above() else {
                break Mix { contacts, lists: 2 }.kind(random);
            };
            match above {
                Demand::Only(kind) if more == 0 => break kind,
                demand => places.insert(0, outer(random, contacts, demand)),
            }
            more = more.saturating_sub(1);
        };
        let branch = |random: &mut Random| {
            let demand = Demand::Only(result);
            random.pick(&[Place::Then(demand), Place::Else(demand)])
        };
        let count = random.pick(&[0, 0, 1, 2, 10]);
        Path {
            branches: (0..count).map(|_| branch(random)).collect(),
            places,
            result,
        }
    }

    /// The kinds of the function whose argument is on the path, and of the one that is called at its end.
    fn callees(&self, random: &mut Random, contacts: Contacts) -> Vec<Kinds> {
        let mut callees = Vec::new();
        if let Place::Argument(count, which, kind) = self.places[0] {
            callees.push(Kinds {
                count,
                result: self.result,
                argument: Some((which, kind)),
            });
        }
        let own = self.places[self.places.len() - 1].demand(contacts);
        callees.push(Kinds {
            count: random.between(0, 4),
            result: settled(random, contacts, own),
            argument: None,
        });
        callees
    }

    fn body(
        &self,
        random: &mut Random,
        contacts: Contacts,
        shapes: &[Shape],
        own: usize,
    ) -> Vec<u8> {
        let places: Vec<Place> = self.branches.iter().chain(&self.places).copied().collect();
        let mut body = Body {
            contacts,
            result: self.result,
            looping: self.branches.len() + 1,
            writer: Loop::new(random, shapes, own),
        };
        body.down(&places, Demand::Only(self.result), 1);
        body.writer.out
    }
}

/// A place for something that is demanded, in any other node or as an argument.
fn outer(random: &mut Random, contacts: Contacts, demand: Demand) -> Place {
    let mut places = Place::all(contacts);
    places.retain(|place| place.demand(contacts) == demand && !place.is_body());
    let is_argument = |place: &Place| matches!(place, Place::Argument(..));
    let (arguments, others): (Vec<Place>, Vec<Place>) = places.into_iter().partition(is_argument);
    match random.one_in(4) && !arguments.is_empty() {
        true => random.pick(&arguments),
        false => random.pick(&others),
    }
}

/// Writes a body with a path.
struct Body<'a> {
    contacts: Contacts,
    result: Kind,
    /// The nodes down to this depth stand where calls loop.
    looping: usize,
    writer: Loop<'a>,
}

impl Body<'_> {
    /// Writes a node for a demand at a depth, with the rest of the path below it, and the call at its end.
    fn down(&mut self, path: &[Place], demand: Demand, depth: usize) {
        let [place, rest @ ..] = path else {
            let callee = self.callee(|shape| demand.allows(shape.result));
            return self.writer.call_of(callee, depth);
        };
        let below = place.demand(self.contacts);
        match *place {
            Place::Head => self.writer.out.push(HEAD),
            Place::Null => self.writer.out.push(NULL),
            Place::Tail(_) => self.writer.out.push(TAIL),
            Place::Argument(count, which, kind) => {
                return self.call((count, which, kind), rest, depth)
            }
            _ => self.writer.out.push(IF),
        }
        match *place {
            Place::Condition(_) => {
                self.down(rest, below, depth + 1);
                self.branch(demand, depth);
                self.branch(demand, depth);
            }
            Place::Then(_) => {
                self.writer.plain(BOOL, depth + 1);
                self.down(rest, below, depth + 1);
                self.branch(demand, depth);
            }
            Place::Else(_) => {
                self.writer.plain(BOOL, depth + 1);
                self.branch(demand, depth);
                self.down(rest, below, depth + 1);
            }
            _ => self.down(rest, below, depth + 1),
        }
    }

    /// A branch beside the path, of an if at a depth.
    fn branch(&mut self, demand: Demand, depth: usize) {
        match depth <= self.looping {
            true => self.writer.place(0, depth + 1),
            false => self.writer.plain(demand, depth + 1),
        }
    }

    /// One of the functions that fit.
    fn callee(&mut self, fits: impl Fn(&Shape) -> bool) -> usize {
        let shapes = self.writer.shapes;
        let all = (0..shapes.len()).filter(|callee| fits(&shapes[*callee]));
        let all: Vec<usize> = all.collect();
        self.writer.random.pick(&all)
    }

    /// A call that loops, with the path in an argument.
    fn call(&mut self, argument: (usize, usize, Kind), path: &[Place], depth: usize) {
        let (count, which, kind) = argument;
        let kinds = Kinds {
            count,
            result: self.result,
            argument: Some((which, kind)),
        };
        let callee = self.callee(|shape| kinds.fit(shape));
        self.writer.out.push(CALL + callee as u8);
        for (place, kind) in self.writer.shapes[callee].parameters.iter().enumerate() {
            let demand = Demand::Only(*kind);
            match place == which {
                true => self.down(path, demand, depth + 1),
                false => self.writer.plain(demand, depth + 1),
            }
        }
    }
}
