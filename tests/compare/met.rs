//! What of the language the cases meet: each node that is taken on some values, as a pair of its place and
//! its sort, with its depth and what comes of it; each node of a kind that its place does not demand; each place where a
//! call does not only loop, and each way in which following ends.

mod endings;
mod walk;

use std::fmt;

use super::language::{
    demand_name, demands, depths, elsewhere, nestings, over, pairs, triples, Elsewhere, Nesting,
    Outcome, Place, Sort, DEEPEST,
};
use super::oracle::follow::Followed;
use super::oracle::program::{Contacts, Demand};
use super::oracle::trace::Samples;
use endings::Ending;
use walk::{Function, Kinds, Node, Walk};

/// The most functions of a program.
const FUNCTIONS: usize = 32;

/// How often each was taken in programs of a sort; a node counts once for each case that has it.
pub struct Met {
    contacts: Contacts,
    /// By place and sort.
    pairs: Vec<u64>,
    /// By place, sort and depth.
    depths: Vec<u64>,
    /// By place, sort and outcome.
    outcomes: Vec<u64>,
    /// By place, sort and the place of the node above.
    triples: Vec<u64>,
    /// Last bytes of longest programs, by place and sort.
    ends: Vec<u64>,
    /// Calls, by the callee's kinds and outcome.
    calls: Vec<u64>,
    /// Calls, by the callee.
    callees: Vec<u64>,
    /// Nodes at fault, by the place that says the sort of fault and the sort of node.
    faults: Vec<u64>,
    /// Nodes at fault, by nesting.
    nestings: Vec<u64>,
    /// Calls that do not only loop, by place.
    elsewhere: Vec<u64>,
    /// Runs that were followed, by ending.
    endings: Vec<u64>,
}

/// What is counted.
#[derive(Clone, Copy)]
pub enum Counted {
    Pair(Place, Sort),
    Depth(usize),
    Callee(usize),
    Call(Kinds, Outcome),
    Called(Kinds),
    AtDepth(Place, Sort, usize),
    Below(Place, Place, Sort),
    Outcome(Place, Sort, Outcome),
    /// In any place with a demand.
    Demanded(Demand, Sort, Outcome),
    End(Place, Sort),
    /// A node of any sort at fault in a place.
    Fault(Place),
    /// A node at fault in any place with a demand.
    OtherKind(Demand, Sort),
    /// A node at fault in the nesting of a number.
    Nested(usize, Nesting),
    /// A call that does not only loop, in the place of a number.
    Elsewhere(usize, Elsewhere),
    /// An ending of a number.
    Ending(usize, Ending),
}

/// Counts of things that must all be met, each with its words.
pub struct Tally {
    name: String,
    counts: Vec<(String, u64)>,
}

/// The number of a pair.
fn number(place: Place, sort: Sort) -> usize {
    place.number() * Sort::COUNT + sort.number()
}

impl Met {
    pub fn new(contacts: Contacts) -> Self {
        let pairs = Place::COUNT * Sort::COUNT;
        Met {
            contacts,
            pairs: vec![0; pairs],
            depths: vec![0; pairs * (DEEPEST + 1)],
            outcomes: vec![0; pairs * Outcome::COUNT],
            triples: vec![0; pairs * Place::COUNT],
            ends: vec![0; pairs],
            calls: vec![0; Kinds::COUNT * Outcome::COUNT],
            callees: vec![0; FUNCTIONS],
            faults: vec![0; pairs],
            nestings: vec![0; nestings(contacts).len()],
            elsewhere: vec![0; elsewhere(contacts).len()],
            endings: vec![0; Ending::all().len()],
        }
    }

    /// Counts what is taken in an accepted program on samples; the cells are those that evaluating left. A cell
    /// that its own body does not come to is told.
    pub fn count(
        &mut self,
        program: &[u8],
        samples: &Samples,
        cells: &[u16],
    ) -> Result<(), String> {
        let mut walk = Walk::new(program, samples, cells);
        for own in 0..walk.functions.len() {
            walk.function(own)?;
            if let Some(node) = walk.end() {
                self.ends[number(node.place, node.sort)] += 1;
            }
            for node in walk.nodes.drain(..).filter(|node| node.seen != 0) {
                self.node(&node, &walk.functions);
            }
        }
        Ok(())
    }

    fn node(&mut self, node: &Node, functions: &[Function]) {
        let pair = number(node.place, node.sort);
        self.pairs[pair] += 1;
        self.depths[pair * (DEEPEST + 1) + node.depth] += 1;
        if let Some(above) = node.above {
            self.triples[pair * Place::COUNT + above.number()] += 1;
        }
        for outcome in node.outcomes() {
            self.outcomes[pair * Outcome::COUNT + outcome] += 1;
            if let Some(callee) = node.callee() {
                let kinds = functions[callee].kinds.number();
                self.calls[kinds * Outcome::COUNT + outcome] += 1;
            }
        }
        if let Some(callee) = node.callee() {
            self.callees[callee] += 1;
        }
    }

    /// Counts a program that is refused by a node at fault in a place, in the nesting of a number.
    pub fn count_fault(&mut self, nesting: usize, place: Place, sort: Sort) {
        self.nestings[nesting] += 1;
        self.faults[number(place, sort)] += 1;
    }

    /// Counts a program that is refused by a call in the place of a number.
    pub fn count_elsewhere(&mut self, place: usize) {
        self.elsewhere[place] += 1;
    }

    /// Counts what following came to.
    pub fn count_followed(&mut self, followed: &Followed) {
        let ending = Ending::of(followed);
        let number = Ending::all().iter().position(|it| *it == ending);
        self.endings[number.expect("these are all endings")] += 1;
    }

    /// How often something was met.
    fn times(&self, counted: Counted) -> u64 {
        match counted {
            Counted::Pair(place, sort) => self.pairs[number(place, sort)],
            Counted::Depth(depth) => self.depths.iter().skip(depth).step_by(DEEPEST + 1).sum(),
            Counted::Callee(callee) => self.callees[callee],
            Counted::Call(kinds, outcome) => {
                self.calls[kinds.number() * Outcome::COUNT + outcome as usize]
            }
            Counted::Called(kinds) => {
                let outcomes = Outcome::ALL.into_iter();
                outcomes
                    .map(|it| self.times(Counted::Call(kinds, it)))
                    .sum()
            }
            Counted::AtDepth(place, sort, depth) => {
                self.depths[number(place, sort) * (DEEPEST + 1) + depth]
            }
            Counted::Below(above, place, sort) => {
                self.triples[number(place, sort) * Place::COUNT + above.number()]
            }
            Counted::Outcome(place, sort, outcome) => {
                self.outcomes[number(place, sort) * Outcome::COUNT + outcome as usize]
            }
            Counted::Demanded(demand, sort, outcome) => {
                let mut places = Place::all(self.contacts);
                places.retain(|place| place.demand(self.contacts) == demand);
                let times = |place: &Place| self.times(Counted::Outcome(*place, sort, outcome));
                places.iter().map(times).sum()
            }
            Counted::End(place, sort) => self.ends[number(place, sort)],
            Counted::Fault(place) => {
                let sorts = Sort::all(self.contacts).into_iter();
                sorts.map(|sort| self.faults[number(place, sort)]).sum()
            }
            Counted::OtherKind(demand, sort) => {
                let mut places = Place::all(self.contacts);
                places.retain(|place| place.demand(self.contacts) == demand);
                let places = places.into_iter();
                places.map(|place| self.faults[number(place, sort)]).sum()
            }
            Counted::Nested(nesting, _) => self.nestings[nesting],
            Counted::Elsewhere(place, _) => self.elsewhere[place],
            Counted::Ending(ending, _) => self.endings[ending],
        }
    }

    fn tally(&self, name: &str, counted: impl IntoIterator<Item = Counted>) -> Tally {
        let over = over(self.contacts);
        let counts = counted
            .into_iter()
            .map(|it| (format!("{it}{over}"), self.times(it)));
        Tally::new(&format!("{name}{over}"), counts.collect())
    }

    /// All that must be met.
    pub fn tallies(&self) -> Vec<Tally> {
        let mut tallies = self.language();
        tallies.extend(self.following());
        tallies
    }

    /// All that the targets must meet together.
    fn language(&self) -> Vec<Tally> {
        let contacts = self.contacts;
        let ends = pairs(contacts)
            .into_iter()
            .filter(|(place, sort)| place.is_last() && sort.below() == 0 && !place.is_body());
        let pairs = pairs(contacts).into_iter();
        let below = triples(contacts).into_iter();
        let mut tallies = vec![
            self.tally(
                "pairs",
                pairs.map(|(place, sort)| Counted::Pair(place, sort)),
            ),
            self.tally("depths", (1..=DEEPEST).map(Counted::Depth)),
            self.tally(
                "pairs below a place",
                below.map(|(a, b, c)| Counted::Below(a, b, c)),
            ),
            self.tally(
                "pairs at the end of 4096 bytes",
                ends.map(|(place, sort)| Counted::End(place, sort)),
            ),
            self.tally("functions called", (0..FUNCTIONS).map(Counted::Callee)),
        ];
        tallies.extend(match contacts {
            Contacts::One => self.over_one(),
            Contacts::Two => self.over_two(),
        });
        tallies.extend(self.kind_faults());
        tallies
    }

    /// A call stands in every place where it does not only loop, and following ends in every way.
    fn following(&self) -> [Tally; 2] {
        let places = elsewhere(self.contacts).into_iter().enumerate();
        let endings = Ending::all().into_iter().enumerate();
        [
            self.tally(
                "places of calls that do not loop",
                places.map(|(number, it)| Counted::Elsewhere(number, it)),
            ),
            self.tally(
                "endings of following",
                endings.map(|(number, it)| Counted::Ending(number, it)),
            ),
        ]
    }

    /// Every nesting has a kind fault, every place but branches has one, and every sort of node is one where something
    /// else is demanded.
    fn kind_faults(&self) -> Vec<Tally> {
        let contacts = self.contacts;
        let mut sorts = Vec::new();
        for demand in demands(contacts) {
            let all = Sort::all(contacts).into_iter();
            let faults = all.filter(|sort| sort.at_fault(*demand));
            sorts.extend(faults.map(|sort| Counted::OtherKind(*demand, sort)));
        }
        let nestings = nestings(contacts).into_iter().enumerate();
        let mut places = Place::all(contacts);
        places.retain(|place| place.fault().is_some());
        vec![
            self.tally(
                "nestings of kind faults",
                nestings.map(|(number, nesting)| Counted::Nested(number, nesting)),
            ),
            self.tally(
                "places of kind faults",
                places.into_iter().map(Counted::Fault),
            ),
            self.tally("sorts of kind faults by demand", sorts),
        ]
    }

    /// Over one contact every pair comes at every depth and to every outcome.
    fn over_one(&self) -> Vec<Tally> {
        let mut at_depths = Vec::new();
        let mut outcomes = Vec::new();
        for (place, sort) in pairs(Contacts::One) {
            at_depths.extend(depths(place, sort).map(|at| Counted::AtDepth(place, sort, at)));
            let all = sort.outcomes().iter();
            outcomes.extend(all.map(|it| Counted::Outcome(place, sort, *it)));
        }
        let mut calls = Vec::new();
        for kinds in Kinds::all(Contacts::One) {
            let all = kinds.outcomes().iter();
            calls.extend(all.map(|it| Counted::Call(kinds, *it)));
        }
        vec![
            self.tally("pairs at a depth", at_depths),
            self.tally("outcomes of pairs", outcomes),
            self.tally("outcomes of calls by kinds", calls),
        ]
    }

    /// Over two contacts every sort comes to every outcome for each demand.
    fn over_two(&self) -> Vec<Tally> {
        let mut outcomes = Vec::new();
        for demand in demands(Contacts::Two) {
            for sort in Sort::all(Contacts::Two) {
                let all = sort.outcomes().iter().filter(|_| sort.fits(*demand));
                outcomes.extend(all.map(|it| Counted::Demanded(*demand, sort, *it)));
            }
        }
        let called = Kinds::all(Contacts::Two).into_iter().map(Counted::Called);
        vec![
            self.tally("outcomes of sorts by demand", outcomes),
            self.tally("kinds called", called),
        ]
    }

    /// What was met of the language, and by following.
    pub fn lines(&self) -> String {
        let none = |counts: [&Vec<u64>; 2]| counts.into_iter().flatten().all(|count| *count == 0);
        let mut text = String::new();
        if !none([&self.pairs, &self.faults]) {
            text += &self.language_lines();
        }
        if !none([&self.elsewhere, &self.endings]) {
            text += &self.following().map(|tally| tally.line()).concat();
        }
        text
    }

    /// A line for each place with the counts of its sorts, one for the depths, and one for each tally.
    fn language_lines(&self) -> String {
        let mut text = String::new();
        let over = over(self.contacts);
        for place in Place::all(self.contacts) {
            text += &format!("taken{over} in {}:", place.name());
            for sort in Sort::all(self.contacts)
                .into_iter()
                .filter(|sort| sort.fits(place.demand(self.contacts)))
            {
                let times = self.times(Counted::Pair(place, sort));
                text += &format!(" {}:{times}", sort.name());
            }
            text += "\n";
        }
        text += &format!("taken{over} at depth");
        for depth in 1..=DEEPEST {
            text += &format!(" {depth}:{}", self.times(Counted::Depth(depth)));
        }
        text += "\n";
        text + &self.language().iter().map(Tally::line).collect::<String>()
    }
}

impl Tally {
    pub fn new(name: &str, counts: Vec<(String, u64)>) -> Self {
        Tally {
            name: name.to_string(),
            counts,
        }
    }

    /// What was never met, in words.
    pub fn never_met(&self) -> Vec<String> {
        let never = self.counts.iter().filter(|(_, times)| *times == 0);
        never.map(|(words, _)| words.clone()).collect()
    }

    /// How many are counted, and the one met least.
    pub fn line(&self) -> String {
        let least = self.counts.iter().min_by_key(|(_, times)| times);
        let (words, times) = least.expect("something is counted");
        format!("met: {self}, the least {times} times: {words}\n")
    }
}

impl fmt::Display for Tally {
    fn fmt(&self, out: &mut fmt::Formatter) -> fmt::Result {
        write!(out, "{} {}", self.counts.len(), self.name)
    }
}

impl fmt::Display for Counted {
    fn fmt(&self, out: &mut fmt::Formatter) -> fmt::Result {
        let pair = |place: Place, sort: Sort| format!("{} in {}", sort.name(), place.name());
        match *self {
            Counted::Pair(place, sort) => out.write_str(&pair(place, sort)),
            Counted::Depth(depth) => write!(out, "depth {depth}"),
            Counted::Callee(callee) => write!(out, "function {callee}"),
            Counted::Call(kinds, outcome) => write!(out, "{}: {outcome:?}", kinds.name()),
            Counted::Called(kinds) => out.write_str(&kinds.name()),
            Counted::AtDepth(place, sort, at) => write!(out, "{} at depth {at}", pair(place, sort)),
            Counted::Below(above, place, sort) => {
                write!(out, "{} below {}", pair(place, sort), above.name())
            }
            Counted::Outcome(place, sort, outcome) => {
                write!(out, "{}: {outcome:?}", pair(place, sort))
            }
            Counted::Demanded(demand, sort, outcome) => {
                write!(
                    out,
                    "{} for a {}: {outcome:?}",
                    sort.name(),
                    demand_name(demand)
                )
            }
            Counted::End(place, sort) => write!(out, "{} at the end", pair(place, sort)),
            Counted::Fault(place) => write!(out, "a kind fault in {}", place.name()),
            Counted::OtherKind(demand, sort) => {
                write!(
                    out,
                    "{} at fault for a {}",
                    sort.name(),
                    demand_name(demand)
                )
            }
            Counted::Nested(_, nesting) => out.write_str(&nesting.name()),
            Counted::Elsewhere(_, elsewhere) => out.write_str(&elsewhere.name()),
            Counted::Ending(_, ending) => out.write_str(&ending.name()),
        }
    }
}
