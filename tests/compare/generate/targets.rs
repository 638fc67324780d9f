//! What a body is written for: a node of some sort in some place, at some depth, or a node at fault there. All targets
//! come in turn.

use std::sync::OnceLock;

use super::super::language::{
    demands, depths, nestings, pairs, triples, Nesting, Place, Sort, DEEPEST,
};
use super::super::oracle::program::{Contacts, Demand, Kind};
use super::super::random::Random;
use super::writer::{settled, Mix, Shape};

/// A node at the end of a path, in a program of a sort.
#[derive(Clone, Debug)]
pub struct Target {
    pub contacts: Contacts,
    /// The places on the path, the node's own last.
    pub path: Vec<Place>,
    pub sort: Sort,
    /// The depth at which the node stands.
    pub depth: usize,
    /// What is demanded of the first node of the path.
    pub demand: Demand,
}

/// What is known of a function's kinds: the number of its parameters, its result, and perhaps one parameter.
pub struct Kinds {
    pub count: usize,
    pub result: Kind,
    pub argument: Option<(usize, Kind)>,
}

impl Kinds {
    pub fn fit(&self, shape: &Shape) -> bool {
        let same = shape.parameters.len() == self.count && shape.result == self.result;
        same && self
            .argument
            .is_none_or(|(which, kind)| shape.parameters[which] == kind)
    }

    /// Such a function, with any other parameters.
    pub fn shape(&self, random: &mut Random, mix: Mix) -> Shape {
        let mut parameters: Vec<Kind> = (0..self.count).map(|_| mix.kind(random)).collect();
        if let Some((which, kind)) = self.argument {
            parameters[which] = kind;
        }
        Shape {
            parameters,
            result: self.result,
        }
    }
}

/// A target before its depth and kinds are drawn.
#[derive(Clone, Copy)]
enum Aim {
    /// A pair at a depth.
    Pair(Place, Sort, usize),
    /// A pair below a node in some place.
    Triple(Place, Place, Sort),
}

/// Goes through a list in steps of this length, round and round; it divides no list's length.
const STRIDE: usize = 7_919;

/// The element of a list whose turn it is. As many turns as it has elements meet each of them once.
fn in_turn<T: Copy>(list: &[T], turn: usize) -> T {
    assert!(!list.len().is_multiple_of(STRIDE));
    list[turn % list.len() * STRIDE % list.len()]
}

/// The depths at which a pair is a target: over one contact all; over two the least, the next, a middle one and the
/// greatest. Whole bodies, which have one depth, come as often as others at some depths.
fn aimed_depths(contacts: Contacts, place: Place, sort: Sort) -> Vec<usize> {
    let depths = depths(place, sort);
    let (least, deepest) = (*depths.start(), *depths.end());
    match contacts {
        Contacts::One if place.is_body() => vec![1; 16],
        Contacts::One => depths.collect(),
        Contacts::Two if place.is_body() => vec![1; 4],
        Contacts::Two => vec![least, least + 1, DEEPEST / 2, deepest],
    }
}

/// Every pair at the depths aimed at, and below a node in every place that is wanted.
fn aims(contacts: Contacts) -> &'static [Aim] {
    static AIMS: [OnceLock<Vec<Aim>>; 2] = [const { OnceLock::new() }; 2];
    AIMS[contacts as usize].get_or_init(|| {
        let mut aims = Vec::new();
        for (place, sort) in pairs(contacts) {
            let depths = aimed_depths(contacts, place, sort).into_iter();
            aims.extend(depths.map(|depth| Aim::Pair(place, sort, depth)));
        }
        let below = triples(contacts).into_iter();
        aims.extend(below.map(|(above, place, sort)| Aim::Triple(above, place, sort)));
        aims
    })
}

/// Every leaf in a last operand.
fn endings(contacts: Contacts) -> &'static [(Place, Sort)] {
    static ENDINGS: [OnceLock<Vec<(Place, Sort)>>; 2] = [const { OnceLock::new() }; 2];
    let ends =
        |(place, sort): &(Place, Sort)| place.is_last() && !place.is_body() && sort.below() == 0;
    let all = || pairs(contacts).into_iter().filter(ends).collect();
    ENDINGS[contacts as usize].get_or_init(all)
}

/// A nesting whose fault is the whole body's, of which there are few, comes so many times.
const OF_BODIES: usize = 8;

/// Every nesting of a kind fault, with its number.
fn faults(contacts: Contacts) -> &'static [(usize, Nesting)] {
    static FAULTS: [OnceLock<Vec<(usize, Nesting)>>; 2] = [const { OnceLock::new() }; 2];
    FAULTS[contacts as usize].get_or_init(|| {
        let mut faults = Vec::new();
        for (number, nesting) in nestings(contacts).into_iter().enumerate() {
            let times = match nesting.places {
                [Some(Place::Body(_)), _, None, _] => OF_BODIES,
                _ => 1,
            };
            faults.extend(vec![(number, nesting); times]);
        }
        faults
    })
}

/// How many targets there are, how many to end a program with, and how many at fault.
pub fn count(contacts: Contacts) -> usize {
    aims(contacts).len()
}

pub fn count_endings(contacts: Contacts) -> usize {
    endings(contacts).len()
}

pub fn count_faults(contacts: Contacts) -> usize {
    faults(contacts).len()
}

/// A target.
pub fn target(random: &mut Random, contacts: Contacts, turn: usize) -> Target {
    match in_turn(aims(contacts), turn) {
        Aim::Pair(place, sort, depth) => Target::new(random, contacts, vec![place], sort, depth),
        Aim::Triple(above, place, sort) => {
            let deepest = *depths(place, sort).end();
            let any = random.between(1 + above.least_depth(), 12);
            let depth = match above {
                Place::Body(_) => 2,
                _ if random.one_in(8) => deepest,
                _ => any,
            };
            Target::new(random, contacts, vec![above, place], sort, depth)
        }
    }
}

/// A leaf to end a program with, mostly at no great depth; the node above it stands in a last operand or is a body.
pub fn ending(random: &mut Random, contacts: Contacts, turn: usize) -> Target {
    let (place, sort) = in_turn(endings(contacts), turn);
    let fits = |above: &Place| {
        let demand = above.demand(contacts);
        above.is_last() && place.demand_above().is_none_or(|it| it == demand)
    };
    let above: Vec<Place> = Place::all(contacts).into_iter().filter(fits).collect();
    let above = random.pick(&above);
    let least = 1 + above.least_depth();
    let any = random.between(5, 12);
    let depth = match above {
        Place::Body(_) => 2,
        _ => random.pick(&[least, least, any, DEEPEST]),
    };
    Target::new(random, contacts, vec![above, place], sort, depth)
}

/// The arguments there are: how many a call has, and which it is.
const ARGUMENTS: [(usize, usize); 10] = [
    (1, 0),
    (2, 0),
    (2, 1),
    (3, 0),
    (3, 1),
    (3, 2),
    (4, 0),
    (4, 1),
    (4, 2),
    (4, 3),
];

/// A node at fault, in the nesting of that number. Its sort, and which arguments there are on the path, come in turn
/// too; an if may stand in a branch of another.
pub fn fault(random: &mut Random, contacts: Contacts, turn: usize) -> (usize, Target) {
    let (number, nesting) = in_turn(faults(contacts), turn);
    let mut path = Vec::new();
    for place in nesting.places() {
        match place {
            Place::Argument(_, _, kind) => {
                let next = turn + turn / ARGUMENTS.len() + path.len();
                let (count, which) = ARGUMENTS[next % ARGUMENTS.len()];
                path.push(Place::Argument(count, which, kind));
            }
            Place::Then(demand) | Place::Else(demand) if random.one_in(4) => {
                path.push(random.pick(&[Place::Then(demand), Place::Else(demand)]));
                path.push(place);
            }
            _ => path.push(place),
        }
    }
    let sorts = nesting.sorts(contacts);
    let sort = sorts[turn % sorts.len()];
    let least = path[0].least_depth() + path.len() - 1;
    let any = random.between(least, 12);
    let depth = match path[0] {
        Place::Body(_) => least,
        _ if random.one_in(8) => DEEPEST - sort.below(),
        _ => any,
    };
    (number, Target::new(random, contacts, path, sort, depth))
}

impl Target {
    fn new(
        random: &mut Random,
        contacts: Contacts,
        path: Vec<Place>,
        sort: Sort,
        depth: usize,
    ) -> Self {
        // A node that is the whole body is of one kind.
        let start = depth - path.len();
        let mut anything = demands(contacts).to_vec();
        anything.retain(|demand| *demand != Demand::Either || start > 1);
        let any = random.pick(&anything);
        let demand = match path[0] {
            Place::Body(kind) => Demand::Only(kind),
            place => place.demand_above().unwrap_or(any),
        };
        Target {
            contacts,
            path,
            sort,
            depth,
            demand,
        }
    }

    /// The depth of the first node of the path; 0 stands for the body itself.
    pub fn start(&self) -> usize {
        self.depth - self.path.len()
    }

    /// What is demanded of the node.
    pub fn own_demand(&self) -> Demand {
        self.path[self.path.len() - 1].demand(self.contacts)
    }

    /// If the node is at fault, the place that says so: the nearest with a sort of fault of its own.
    pub fn place_at_fault(&self) -> Option<Place> {
        let at_fault = self.sort.at_fault(self.own_demand());
        let mut places = self.path.iter().rev().copied();
        places.find(|place| at_fault && place.fault().is_some())
    }

    /// The result of a function whose body may hold the target, if that matters. Above a list of either contact there
    /// is hd or null, which is a Bool: the first node of a body, or below an if that begins it.
    fn result(&self) -> Option<Kind> {
        match (self.start(), self.demand) {
            (0 | 1, Demand::Only(kind)) => Some(kind),
            (2 | 3, Demand::Either) => Some(Kind::Bool),
            _ => None,
        }
    }

    /// The kind of the parameter that the node needs, and its place if that matters.
    fn parameter(&self) -> Option<(Kind, Option<usize>)> {
        match self.sort {
            Sort::Parameter(which, kind) => Some((kind, Some(which))),
            Sort::IfParameter => Some((Kind::Bool, None)),
            Sort::HeadOfParameter(contact)
            | Sort::TailOfParameter(contact)
            | Sort::NullOfParameter(contact)
            | Sort::IfHeadOfParameter(contact)
            | Sort::IfNullOfParameter(contact) => Some((Kind::List(contact), None)),
            _ => None,
        }
    }

    /// Kinds for a function whose body may hold the target.
    pub fn owner(&self, random: &mut Random, mix: Mix) -> Shape {
        let mut shape = Shape::any(random, mix);
        if let Some(result) = self.result() {
            shape.result = result;
        }
        if let Some((kind, which)) = self.parameter() {
            let which = which.unwrap_or_else(|| random.below(4));
            while shape.parameters.len() <= which {
                shape.parameters.push(mix.kind(random));
            }
            shape.parameters[which] = kind;
        }
        shape
    }

    /// Whether the target may be in the body of a function of these kinds.
    pub fn fits(&self, shape: &Shape) -> bool {
        let parameter = match self.parameter() {
            Some((kind, Some(which))) => shape.parameters.get(which) == Some(&kind),
            Some((kind, None)) => shape.parameters.contains(&kind),
            None => true,
        };
        parameter && self.result().is_none_or(|result| shape.result == result)
    }

    /// The kinds of the functions that the path calls, and the node itself.
    pub fn callees(&self, random: &mut Random) -> Vec<Kinds> {
        let mut callees = Vec::new();
        let mut demand = self.demand;
        for place in &self.path {
            if let Place::Argument(count, which, kind) = *place {
                callees.push(Kinds {
                    count,
                    result: settled(random, self.contacts, demand),
                    argument: Some((which, kind)),
                });
            }
            demand = place.demand(self.contacts);
        }
        if let Sort::Call(count, result) = self.sort {
            callees.push(Kinds {
                count,
                result,
                argument: None,
            });
        }
        callees
    }
}
