//! Programs with bodies written on purpose: their functions' kinds, a trace that fits, and the other bodies.

use super::super::language::{GUARD, RAM};
use super::super::oracle::program::{Contacts, Kind};
use super::super::oracle::trace::{PerContact, Samples};
use super::super::random::Random;
use super::callees::Callee;
use super::chains::Chain;
use super::preview::Preview;
use super::programs::{self, MOST_BYTES};
use super::targets::{Kinds, Target};
use super::traces;
use super::writer::{Mix, Shape};

/// The most functions of a program.
const MOST_FUNCTIONS: usize = 32;
/// The most samples of a contact.
const MOST_SAMPLES: usize = 12;

/// A program with samples that fit it, and the cells that it needs on them.
pub struct Case {
    pub program: Vec<u8>,
    pub samples: Samples,
    pub cells: usize,
}

/// The functions of a program.
pub struct Plan {
    pub shapes: Vec<Shape>,
    pub roles: Vec<Role>,
    pub mix: Mix,
}

/// What a function is for.
#[derive(Clone, Copy, PartialEq, Eq)]
pub enum Role {
    /// To be called: it has a value on all arguments.
    Total,
    /// To be called: it may have none.
    Any,
    /// To have the body that is written on purpose, of this number.
    Owner(usize),
}

/// A program with a body for each target, all of one sort. The targets are taken, but for one at fault.
pub fn of_targets(random: &mut Random, targets: &[Target]) -> Case {
    loop {
        let plan = Plan::of_targets(random, targets);
        let samples = plan.samples(random, 300, 80);
        let (total, mut bodies) = plan.callees(random);
        let preview = Preview {
            shapes: &plan.shapes,
            total: &total,
            samples: &samples,
        };
        for (own, target) in plan.owners() {
            bodies[own] = Chain::body(random, &preview, own, &targets[target]);
        }
        if let Some(case) = plan.case(bodies, &samples) {
            return case;
        }
    }
}

impl Plan {
    /// Main alone, to be called; over two contacts also functions that lead from each kind to another.
    pub fn new(random: &mut Random, contacts: Contacts) -> Self {
        let lists = random.pick(&[2, 2, 4, 8]);
        let mut plan = Plan {
            shapes: vec![Shape::main(contacts)],
            roles: vec![Role::Any],
            mix: Mix { contacts, lists },
        };
        if contacts == Contacts::Two {
            for (result, argument) in [
                (RAM, GUARD),
                (RAM, Kind::Bool),
                (GUARD, RAM),
                (GUARD, Kind::Bool),
                (Kind::Bool, RAM),
                (Kind::Bool, GUARD),
            ] {
                plan.way(random, result, argument);
            }
        }
        plan
    }

    /// Sees to a function to be called with a result of a kind, whose last argument is of another.
    pub fn way(&mut self, random: &mut Random, result: Kind, argument: Kind) {
        let count = random.between(1, 4);
        let kinds = Kinds {
            count,
            result,
            argument: Some((count - 1, argument)),
        };
        self.callee(random, &kinds);
    }

    fn of_targets(random: &mut Random, targets: &[Target]) -> Self {
        let mut plan = Plan::new(random, targets[0].contacts);
        for (number, target) in targets.iter().enumerate() {
            for kinds in target.callees(random) {
                plan.callee(random, &kinds);
            }
            plan.owner(random, target, number);
        }
        let more = random.pick(&[0, 0, 0, 0, 1, 1, 2, 3, 5]);
        let most = match random.one_in(24) {
            true => MOST_FUNCTIONS,
            false => plan.shapes.len() + more,
        };
        plan.fill(random, most);
        plan
    }

    /// Adds a function.
    pub fn add(&mut self, shape: Shape, role: Role) {
        self.shapes.push(shape);
        self.roles.push(role);
    }

    /// Sees to a function of some kinds to be called.
    pub fn callee(&mut self, random: &mut Random, kinds: &Kinds) {
        if self.shapes.iter().any(|shape| kinds.fit(shape)) && random.one_in(2) {
            return;
        }
        let role = match random.one_in(4) {
            true => Role::Any,
            false => Role::Total,
        };
        self.add(kinds.shape(random, self.mix), role);
    }

    /// A function for a target, at times main.
    fn owner(&mut self, random: &mut Random, target: &Target, number: usize) {
        if self.roles[0] == Role::Any && target.fits(&self.shapes[0]) && random.one_in(3) {
            self.roles[0] = Role::Owner(number);
            return;
        }
        let shape = target.owner(random, self.mix);
        self.add(shape, Role::Owner(number));
    }

    /// Adds functions to be called until there are so many, and puts all but main into any order.
    pub fn fill(&mut self, random: &mut Random, most: usize) {
        while self.shapes.len() < most.min(MOST_FUNCTIONS) {
            let role = random.pick(&[Role::Any, Role::Total]);
            self.add(Shape::any(random, self.mix), role);
        }
        let mut order: Vec<usize> = (1..self.shapes.len()).collect();
        random.shuffle(&mut order);
        order.insert(0, 0);
        self.shapes = order.iter().map(|own| self.shapes[*own].clone()).collect();
        self.roles = order.iter().map(|own| self.roles[*own]).collect();
    }

    /// The functions whose bodies are written on purpose, and their numbers.
    pub fn owners(&self) -> Vec<(usize, usize)> {
        let roles = self.roles.iter().enumerate();
        let numbers = roles.filter_map(|(own, role)| match role {
            Role::Owner(number) => Some((own, *number)),
            _ => None,
        });
        numbers.collect()
    }

    /// A few samples, mostly so few that all functions, and those written on purpose, need no more cells than the
    /// numbers given.
    pub fn samples(&self, random: &mut Random, most: usize, owned: usize) -> Samples {
        let times = match random.below(40) {
            0 => 10,
            1..=3 => 3,
            _ => 1,
        };
        let owners: Vec<usize> = self.owners().iter().map(|(own, _)| *own).collect();
        let all: Vec<usize> = (0..self.shapes.len()).collect();
        let heavy = |counts: &PerContact<usize>| {
            let cells = |functions: &[usize]| self.cells(functions, counts);
            cells(&all) > times * most || cells(&owners) > times * owned
        };
        let mut counts = PerContact {
            ram: random.between(0, MOST_SAMPLES),
            guard: None,
        };
        if self.mix.contacts == Contacts::Two {
            counts.guard = Some(random.between(0, MOST_SAMPLES));
        }
        while counts.each().any(|n| *n > 1) && heavy(&counts) {
            match &mut counts.guard {
                Some(m) if *m > 1 && (counts.ram < 2 || random.one_in(2)) => *m -= 1,
                _ => counts.ram -= 1,
            }
        }
        traces::samples(random, &counts)
    }

    /// The cells that some functions need on so many samples.
    fn cells(&self, functions: &[usize], counts: &PerContact<usize>) -> usize {
        let radix = |kind: &Kind| match kind {
            Kind::Bool => 2,
            Kind::List(contact) => counts.of(*contact) + 1,
        };
        let cells = |own: &usize| {
            self.shapes[*own]
                .parameters
                .iter()
                .map(radix)
                .product::<usize>()
        };
        functions.iter().map(cells).sum()
    }

    /// The bodies of the functions to be called: those of the total ones, then all; other bodies are empty.
    pub fn callees(&self, random: &mut Random) -> (Vec<Vec<u8>>, Vec<Vec<u8>>) {
        let all: Vec<usize> = (0..self.shapes.len()).collect();
        let mut total = vec![Vec::new(); all.len()];
        let mut order = all.clone();
        random.shuffle(&mut order);
        order.retain(|own| self.roles[*own] == Role::Total);
        for (place, own) in order.iter().enumerate() {
            total[*own] = self.callee_body(random, *own, &order[..place]);
        }
        let mut bodies = total.clone();
        for own in all.iter().filter(|own| self.roles[**own] == Role::Any) {
            bodies[*own] = match random.one_in(3) {
                true => programs::body(random, &self.shapes, *own, false, 40),
                false => self.callee_body(random, *own, &all),
            };
        }
        (total, bodies)
    }

    fn callee_body(&self, random: &mut Random, own: usize, callees: &[usize]) -> Vec<u8> {
        let mut callee = Callee {
            random,
            shapes: &self.shapes,
            own,
            callees: callees.to_vec(),
            total: self.roles[own] == Role::Total,
            full: Vec::new(),
            out: Vec::new(),
        };
        callee.body();
        callee.out
    }

    /// The program of these bodies on samples, if it is not too long.
    pub fn case(&self, bodies: Vec<Vec<u8>>, samples: &Samples) -> Option<Case> {
        let program = programs::of_parts(self.mix.contacts, &self.shapes, bodies);
        let all: Vec<usize> = (0..self.shapes.len()).collect();
        (program.len() <= MOST_BYTES).then(|| Case {
            program,
            samples: samples.clone(),
            cells: self.cells(&all, &samples.map(Vec::len)),
        })
    }
}
