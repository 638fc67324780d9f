//! Programs with wide bodies, and programs of the greatest length that end in a target.

use super::super::language::{kinds, RAM};
use super::super::oracle::program::{Contacts, Demand, Kind};
use super::super::random::Random;
use super::bodies::{Case, Plan, Role};
use super::chains::Chain;
use super::exact::Exact;
use super::preview::Preview;
use super::programs::{MOST_BODY, MOST_BYTES};
use super::targets::{Kinds, Target};
use super::writer::Shape;

/// What bodies are for: to be wide, or to end in the target.
const WIDE: usize = 0;
const ENDING: usize = 1;

/// A program with one or two wide bodies: calls of four arguments in calls of four arguments.
pub fn wide(random: &mut Random, contacts: Contacts) -> Case {
    loop {
        let plan = wide_plan(random, contacts);
        let samples = plan.samples(random, 300, 24);
        let (total, mut bodies) = plan.callees(random);
        let callees = callees(random, &total);
        let preview = Preview {
            shapes: &plan.shapes,
            total: &total,
            samples: &samples,
        };
        for (own, _) in plan.owners() {
            let most = random.pick(&[100, 341, MOST_BODY, MOST_BODY]);
            let any = random.between(50, most);
            let length = random.pick(&[most, any]);
            bodies[own] = exact(random, &preview, &callees, own, length, 1);
        }
        if let Some(case) = plan.case(bodies, &samples) {
            return case;
        }
    }
}

/// The functions of a program with wide bodies: main or another has one.
fn wide_plan(random: &mut Random, contacts: Contacts) -> Plan {
    let mut plan = Plan::new(random, contacts);
    for count in [4, 4, 3, 2, 1] {
        for result in kinds(contacts) {
            let kinds = Kinds {
                count,
                result: *result,
                argument: None,
            };
            plan.callee(random, &kinds);
        }
    }
    if random.one_in(2) {
        plan.roles[0] = Role::Owner(WIDE);
    }
    if random.one_in(2) || plan.owners().is_empty() {
        let shape = Shape::any(random, plan.mix);
        plan.add(shape, Role::Owner(WIDE));
    }
    let functions = plan.shapes.len() + random.below(3);
    plan.fill(random, functions);
    plan
}

/// The functions that wide bodies call: mostly the total ones alone.
fn callees(random: &mut Random, total: &[Vec<u8>]) -> Vec<usize> {
    let any = random.one_in(4);
    let all = 0..total.len();
    all.filter(|callee| any || !total[*callee].is_empty())
        .collect()
}

/// A wide expression for a body, of exactly so many bytes; its first node stands at the given depth.
fn exact(
    random: &mut Random,
    preview: &Preview,
    callees: &[usize],
    own: usize,
    length: usize,
    depth: usize,
) -> Vec<u8> {
    let mut exact = Exact {
        values: preview.values(random, own),
        random,
        preview,
        callees,
        own,
        drawing: false,
        out: Vec::new(),
    };
    exact.expression(Demand::Only(preview.shapes[own].result), length, depth);
    exact.out
}

/// A program of the greatest length. Its last body, and so the program, ends in the target.
pub fn longest(random: &mut Random, target: &Target) -> Case {
    loop {
        let plan = ended_plan(random, target);
        let samples = plan.samples(random, 300, 24);
        let (total, mut bodies) = plan.callees(random);
        let callees = callees(random, &total);
        let preview = Preview {
            shapes: &plan.shapes,
            total: &total,
            samples: &samples,
        };
        let last = plan.shapes.len() - 1;
        bodies[last] = ended_body(random, &preview, &callees, target);
        let header = target.contacts.header();
        let written: usize = bodies.iter().map(|body| header + body.len()).sum();
        let mut owners = plan.owners();
        owners.retain(|(_, number)| *number == WIDE);
        let rest = MOST_BYTES.saturating_sub(1 + written);
        let Some(lengths) = lengths(random, rest, owners.len()) else {
            continue;
        };
        for ((own, _), length) in owners.iter().zip(lengths) {
            bodies[*own] = exact(random, &preview, &callees, *own, length, 1);
        }
        if let Some(case) = plan.case(bodies, &samples) {
            return case;
        }
    }
}

/// The functions of a program that ends in a target; main and some others fill it up.
fn ended_plan(random: &mut Random, target: &Target) -> Plan {
    let mut plan = Plan::new(random, target.contacts);
    plan.roles[0] = Role::Owner(WIDE);
    if target.contacts == Contacts::One {
        // The one way from a list to a Bool in a last operand.
        plan.way(random, RAM, Kind::Bool);
    }
    for kinds in target.callees(random) {
        plan.callee(random, &kinds);
    }
    let mix = plan.mix.even();
    for _ in 0..random.between(3, 6) {
        let shape = Shape {
            parameters: (0..random.below(2)).map(|_| mix.kind(random)).collect(),
            result: mix.kind(random),
        };
        plan.add(shape, Role::Owner(WIDE));
    }
    let functions = plan.shapes.len() + random.pick(&[0, 0, 2, 8]);
    plan.fill(random, functions);
    let owner = target.owner(random, plan.mix);
    plan.add(owner, Role::Owner(ENDING));
    plan
}

/// A body that ends in the target, alone or after a wide branch that fills the body up.
fn ended_body(
    random: &mut Random,
    preview: &Preview,
    callees: &[usize],
    target: &Target,
) -> Vec<u8> {
    let own = preview.shapes.len() - 1;
    let (mut body, gap) = Chain::ended_body(random, preview, own, target);
    if let Some(at) = gap {
        let most = MOST_BODY - body.len();
        let any = random.between(1, most);
        let length = random.pick(&[1, most, any]);
        let branch = exact(random, preview, callees, own, length, 2);
        body.splice(at..at, branch);
    }
    body
}

/// A length in so many parts, each a body's; many of them the longest.
fn lengths(random: &mut Random, mut rest: usize, parts: usize) -> Option<Vec<usize>> {
    let mut lengths = Vec::new();
    for left in (0..parts).rev() {
        let most = MOST_BODY.min(rest.checked_sub(left)?);
        let least = rest.saturating_sub(left * MOST_BODY).max(1);
        if least > most {
            return None;
        }
        let any = random.between(least, most);
        let length = random.pick(&[least, most, any]);
        lengths.push(length);
        rest -= length;
    }
    Some(lengths)
}
