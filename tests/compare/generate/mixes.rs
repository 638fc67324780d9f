//! Programs whose functions have one mix of parameters, and bodies that tell the values of each.

use super::super::language::kinds;
use super::super::oracle::program::{Contacts, Kind};
use super::super::oracle::trace::{PerContact, Samples};
use super::super::random::Random;
use super::bodies::{Case, Plan, Role};
use super::traces;
use super::writer::{Mix, Shape, CALL, IF, NULL, PARAMETER};

/// The most samples of a contact.
const MOST_SAMPLES: usize = 4;
/// The bodies that give a parameter have its number; those that may give it by a call have so much more.
const BY_CALL: usize = 4;

/// A program with functions of a mix of parameters, at most so many, on a few samples.
pub fn of_mix(random: &mut Random, contacts: Contacts, mix: &[Kind], most: usize) -> Case {
    loop {
        let plan = plan(random, contacts, mix, most);
        let samples = samples(random, contacts);
        let (_, mut bodies) = plan.callees(random);
        for (own, number) in plan.owners() {
            bodies[own] = match number.checked_sub(BY_CALL) {
                Some(which) => by_call(random, &plan.shapes, own, which),
                None => vec![PARAMETER + number as u8],
            };
        }
        if let Some(case) = plan.case(bodies, &samples) {
            return case;
        }
    }
}

/// Main, the functions of the mix, and some others between them.
fn plan(random: &mut Random, contacts: Contacts, mix: &[Kind], most: usize) -> Plan {
    let mut plan = Plan {
        shapes: vec![Shape::main(contacts)],
        roles: vec![Role::Any],
        mix: Mix { contacts, lists: 2 },
    };
    let mut functions = functions(random, contacts, mix);
    random.shuffle(&mut functions);
    functions.truncate(most);
    for (result, role) in functions {
        let parameters = mix.to_vec();
        plan.add(Shape { parameters, result }, role);
    }
    let functions = plan.shapes.len() + random.below(3);
    plan.fill(random, functions);
    plan
}

/// The results of the functions of a mix, and what they are for: one gives each parameter, one gives some parameter by
/// a call, and the bodies of two test all parameters.
fn functions(random: &mut Random, contacts: Contacts, mix: &[Kind]) -> Vec<(Kind, Role)> {
    let parameters = mix.iter().copied().zip(0..);
    let mut functions: Vec<(Kind, Role)> = parameters
        .map(|(kind, which)| (kind, Role::Owner(which)))
        .collect();
    if !mix.is_empty() {
        let which = random.below(mix.len());
        functions.push((mix[which], Role::Owner(BY_CALL + which)));
    }
    for role in [Role::Total, Role::Any] {
        functions.push((random.pick(kinds(contacts)), role));
    }
    functions
}

/// A few samples, of two contacts mostly not as many of the one as of the other.
fn samples(random: &mut Random, contacts: Contacts) -> Samples {
    let ram = random.between(0, MOST_SAMPLES);
    let other = (ram + random.between(1, MOST_SAMPLES)) % (MOST_SAMPLES + 1);
    let guard = match random.one_in(6) {
        true => ram,
        false => other,
    };
    let guard = (contacts == Contacts::Two).then_some(guard);
    traces::samples(random, &PerContact { ram, guard })
}

/// A parameter where one of them is True or empty; else what a function of the same kinds, perhaps this one, comes to
/// on the same values.
fn by_call(random: &mut Random, shapes: &[Shape], own: usize, which: usize) -> Vec<u8> {
    let Shape { parameters, result } = &shapes[own];
    let same = |shape: &Shape| shape.parameters == *parameters && shape.result == *result;
    let callees: Vec<u8> = (CALL..)
        .zip(shapes)
        .filter(|(_, shape)| same(shape))
        .map(|(call, _)| call)
        .collect();
    let tested = random.below(parameters.len());
    let mut body = vec![IF];
    if parameters[tested] != Kind::Bool {
        body.push(NULL);
    }
    body.extend([PARAMETER + tested as u8, PARAMETER + which as u8]);
    body.push(random.pick(&callees));
    body.extend((PARAMETER..).take(parameters.len()));
    body
}
