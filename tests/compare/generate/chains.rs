//! Bodies that are one long branch down to a target. There are values of the parameters on which the target is
//! taken, and on which the body mostly comes to something else if the target does.

use super::super::language::{demands, Place, Sort, BOOL};
use super::super::oracle::program::{Demand, Kind, Value};
use super::super::random::Random;
use super::beside::Beside;
use super::preview::{Preview, Told};
use super::targets::Target;
use super::writer::{empty, settled, CALL, FALSE, HEAD, IF, NULL, PARAMETER, TAIL};

/// From so many bytes of the branch on, what stands beside it is kept to leaves.
const LONG: usize = 450;
/// How often a node is drawn again that would hide what stands below it.
const DRAWS: usize = 8;

/// Writes one body.
pub struct Chain<'a> {
    beside: Beside<'a>,
    preview: &'a Preview<'a>,
    target: &'a Target,
    /// The branch goes through last operands alone, so that the target ends the body.
    last: bool,
    /// The depth of the branch's first node.
    first: usize,
}

/// The branch so far, from the target up.
struct Branch {
    bytes: Vec<u8>,
    /// What is demanded where it stands.
    demand: Demand,
    /// What it comes to, and another value that it must not be taken for.
    values: Option<(Value, Value)>,
}

/// A node to put above the branch.
struct Link {
    place: Place,
    /// What is demanded of the node.
    demand: Demand,
    /// The node and its operands before the branch, and those after it.
    before: Vec<u8>,
    after: Vec<u8>,
    /// What the other operands come to.
    others: Vec<Told>,
    /// The function called, if it is a call.
    callee: usize,
}

impl<'a> Chain<'a> {
    /// The body of a function with a target in it.
    pub fn body(
        random: &'a mut Random,
        preview: &'a Preview<'a>,
        own: usize,
        target: &'a Target,
    ) -> Vec<u8> {
        let mut chain = Chain {
            beside: Beside::new(random, preview, own),
            preview,
            target,
            last: false,
            first: 1,
        };
        chain.branch()
    }

    /// The body of a function that ends in a target. Where that is deep enough the body begins with an if whose
    /// first branch is left out; the place of that comes with it.
    pub fn ended_body(
        random: &'a mut Random,
        preview: &'a Preview<'a>,
        own: usize,
        target: &'a Target,
    ) -> (Vec<u8>, Option<usize>) {
        let gap = target.start() > 2;
        let mut chain = Chain {
            beside: Beside::new(random, preview, own),
            preview,
            target,
            last: true,
            first: 1 + usize::from(gap),
        };
        if !gap {
            return (chain.branch(), None);
        }
        let mut bytes = vec![IF];
        chain.beside.valued(&mut bytes, BOOL, 2, Some(false));
        let place = bytes.len();
        bytes.extend(chain.branch());
        (bytes, Some(place))
    }

    /// The whole branch.
    fn branch(&mut self) -> Vec<u8> {
        let mut branch = self.end();
        for depth in (self.first..self.target.depth).rev() {
            branch = self.longer(branch, depth);
        }
        branch.bytes
    }

    /// The branch with a node at a depth above it.
    fn longer(&mut self, branch: Branch, depth: usize) -> Branch {
        self.beside.plain = branch.bytes.len() > LONG;
        let mut link = self.link(&branch, depth);
        for _ in 0..DRAWS {
            if branch.values.is_none() || self.seen_through(&link, &branch).is_some() {
                break;
            }
            link = self.link(&branch, depth);
        }
        Branch {
            values: self.seen_through(&link, &branch),
            bytes: [link.before, branch.bytes, link.after].concat(),
            demand: link.demand,
        }
    }

    /// What a node comes to for both values of the branch, if it tells them apart.
    fn seen_through(&self, link: &Link, branch: &Branch) -> Option<(Value, Value)> {
        let (value, other) = branch.values?;
        match (self.through(link, value), self.through(link, other)) {
            (Told::Value(value), Told::Value(other)) if value != other => Some((value, other)),
            _ => None,
        }
    }

    /// What a node comes to for a value of the branch.
    fn through(&self, link: &Link, value: Value) -> Told {
        match link.place {
            Place::Head | Place::Tail(_) | Place::Null => self.preview.unary(link.before[0], value),
            Place::Condition(_) => link.others[usize::from(value == Value::Bool(false))],
            Place::Then(_) | Place::Else(_) | Place::Body(_) => Told::Value(value),
            Place::Argument(_, which, _) => {
                let mut arguments = Vec::new();
                for other in &link.others {
                    let Told::Value(other) = other else {
                        return *other;
                    };
                    arguments.push(*other);
                }
                arguments.insert(which, value);
                self.preview.call(link.callee, &arguments)
            }
        }
    }

    /// A node at a depth for the branch to hang on: the one on the target's path, or any.
    fn link(&mut self, branch: &Branch, depth: usize) -> Link {
        let target = self.target;
        let start = target.start();
        if depth < start {
            let (place, demand) = self.place(branch.demand, depth);
            return self.node(place, demand, depth);
        }
        let demand = match depth == start {
            true => target.demand,
            false => target.path[depth - start - 1].demand(target.contacts),
        };
        self.node(target.path[depth - start], demand, depth)
    }

    /// What may be demanded of a node at a depth: the first has the body's kind, and above a list of either contact
    /// there is a Bool.
    fn demands(&self, depth: usize) -> Vec<Demand> {
        let result = Demand::Only(self.preview.shapes[self.beside.own].result);
        if depth == self.first {
            return vec![result];
        }
        let mut demands = demands(self.target.contacts).to_vec();
        if depth == self.first + 1 && result != BOOL {
            demands.retain(|demand| *demand != Demand::Either);
        }
        demands
    }

    /// A place for an operand for a demand, and what is demanded of its node, which stands at a depth.
    fn place(&mut self, below: Demand, depth: usize) -> (Place, Demand) {
        let demands = self.demands(depth);
        loop {
            let random = &mut self.beside.random;
            let demand = random.pick(&demands);
            let place = match random.below(8) {
                0 | 1 if demand == BOOL => random.pick(&[Place::Head, Place::Null]),
                0 => Place::Tail(demand),
                1..=4 => random.pick(&[
                    Place::Condition(demand),
                    Place::Then(demand),
                    Place::Else(demand),
                ]),
                _ => self.argument(demand),
            };
            let fits = place.demand(self.target.contacts) == below;
            if fits && (place.is_last() || !self.last) {
                return (place, demand);
            }
        }
    }

    /// An argument of a function with a result for a demand; the branch of an if where there is none.
    fn argument(&mut self, demand: Demand) -> Place {
        let any = self.beside.random.one_in(32);
        let callees = self.beside.callees(demand, |callee, shape| {
            !shape.parameters.is_empty() && (any || self.preview.is_total(callee))
        });
        if callees.is_empty() {
            return Place::Else(demand);
        }
        let kinds = &self.preview.shapes[self.beside.random.pick(&callees)].parameters;
        let which = self.beside.random.below(kinds.len());
        Place::Argument(kinds.len(), which, kinds[which])
    }

    /// A node at a depth for a branch in one of its places. What it takes before the branch has a value.
    fn node(&mut self, place: Place, demand: Demand, depth: usize) -> Link {
        let mut link = Link {
            place,
            demand,
            before: Vec::new(),
            after: Vec::new(),
            others: Vec::new(),
            callee: 0,
        };
        let (below, beside) = (depth + 1, &mut self.beside);
        match place {
            Place::Head => link.before.push(HEAD),
            Place::Tail(_) => link.before.push(TAIL),
            Place::Null => link.before.push(NULL),
            Place::Condition(_) => {
                link.before.push(IF);
                link.others = beside.branches(&mut link.after, demand, below);
            }
            Place::Then(_) => {
                link.before.push(IF);
                beside.valued(&mut link.before, BOOL, below, Some(true));
                beside.any(&mut link.after, demand, below);
            }
            Place::Else(_) => {
                link.before.push(IF);
                beside.valued(&mut link.before, BOOL, below, Some(false));
                beside.any(&mut link.before, demand, below);
            }
            Place::Argument(count, which, kind) => self.call(&mut link, count, which, kind, below),
            Place::Body(_) => unreachable!("a body is no operand"),
        }
        link
    }

    /// A call with a branch in one of its arguments.
    fn call(&mut self, link: &mut Link, count: usize, which: usize, kind: Kind, below: usize) {
        let mut callees = self.beside.callees(link.demand, |_, shape| {
            shape.parameters.len() == count && shape.parameters[which] == kind
        });
        if callees.iter().any(|callee| self.preview.is_total(*callee)) {
            callees.retain(|callee| self.preview.is_total(*callee));
        }
        link.callee = self.beside.random.pick(&callees);
        link.before.push(CALL + link.callee as u8);
        for (place, kind) in self.preview.shapes[link.callee]
            .parameters
            .iter()
            .enumerate()
        {
            let demand = Demand::Only(*kind);
            if place < which {
                let other = self.beside.valued(&mut link.before, demand, below, None);
                link.others.push(other);
            }
            if place > which {
                let other = self.beside.mostly_valued(&mut link.after, demand, below);
                link.others.push(other);
            }
        }
    }

    /// The target's node with all below it.
    fn end(&mut self) -> Branch {
        let (demand, depth) = (self.target.own_demand(), self.target.depth);
        let beside = &mut self.beside;
        let mut bytes = Vec::new();
        let out = &mut bytes;
        match self.target.sort {
            Sort::False => out.push(FALSE),
            Sort::True => out.push(FALSE + 1),
            Sort::Empty(contact) => out.push(empty(contact)),
            Sort::Parameter(which, _) => out.push(PARAMETER + which as u8),
            Sort::HeadOfParameter(of) => beside.of_parameter(out, &[HEAD], Kind::List(of)),
            Sort::TailOfParameter(of) => beside.of_parameter(out, &[TAIL], Kind::List(of)),
            Sort::NullOfParameter(of) => beside.of_parameter(out, &[NULL], Kind::List(of)),
            Sort::Head => beside.of_other(out, HEAD, Demand::Either, depth),
            Sort::Tail => beside.of_other(out, TAIL, demand, depth),
            Sort::Null => beside.of_other(out, NULL, Demand::Either, depth),
            Sort::IfParameter => beside.of_parameter(out, &[IF], Kind::Bool),
            Sort::IfHeadOfParameter(of) => beside.of_parameter(out, &[IF, HEAD], Kind::List(of)),
            Sort::IfNullOfParameter(of) => beside.of_parameter(out, &[IF, NULL], Kind::List(of)),
            Sort::If => {
                out.push(IF);
                beside.other(out, BOOL, depth + 1);
            }
            Sort::Call(count, result) => {
                let result = Demand::Only(result);
                let callees = beside.callees(result, |_, shape| shape.parameters.len() == count);
                let callee = beside.random.pick(&callees);
                beside.call(out, callee, depth);
            }
        }
        if bytes[0] == IF {
            beside.any_branches(&mut bytes, demand, depth + 1);
        }
        let values = match self.target.place_at_fault() {
            None => self.told_apart(&bytes, demand),
            Some(_) => None,
        };
        Branch {
            bytes,
            demand,
            values,
        }
    }

    /// What the target comes to, and another value that it might be taken for: of a list, another of its contact, or
    /// where either may stand of any.
    fn told_apart(&mut self, bytes: &[u8], demand: Demand) -> Option<(Value, Value)> {
        let Told::Value(value) = self.preview.expression(bytes, &self.beside.values) else {
            return None;
        };
        let random = &mut self.beside.random;
        let kind = match (value, demand) {
            (Value::Suffix(contact, _), Demand::Only(_)) => Kind::List(contact),
            (Value::Suffix(..), Demand::Either) => settled(random, self.target.contacts, demand),
            (Value::Bool(_), _) => Kind::Bool,
        };
        let most = match kind {
            Kind::List(contact) => self.preview.samples.of(contact).len(),
            Kind::Bool => 1,
        };
        let others = (0..=most as u16).map(|digit| kind.value(digit));
        let others: Vec<Value> = others.filter(|other| *other != value).collect();
        match others.is_empty() {
            true => None,
            false => Some((value, random.pick(&others))),
        }
    }
}
