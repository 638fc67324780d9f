//! Evaluating programs whose bodies are written on purpose: every node in every place, over one contact at every
//! depth, wide bodies, and programs of the greatest length.

use super::super::generate::bodies::{self, Case};
use super::super::generate::targets::{self, Target};
use super::super::generate::{traces, wide};
use super::super::oracle::program::Contacts;
use super::super::oracle::{program, search, trace};
use super::{evaluation, Bench, Compared};

/// The targets of a program. Over one contact a round has so many programs, over two every second round has one.
const TARGETS: usize = 4;
const PROGRAMS: usize = 2;
const SECOND: u64 = 2;
/// One program in so many is tried on more samples.
const MORE: usize = 32;
/// In every so many rounds there is a program with wide bodies, and one of the greatest length, of each sort in turn.
const WIDE: u64 = 6;
const LONGEST: u64 = 8;

/// After so many rounds every target had its turn.
pub fn rounds_for_all() -> u64 {
    let programs = Contacts::ALL.map(|it| targets::count(it).div_ceil(TARGETS) as u64);
    let endings = Contacts::ALL.map(|it| targets::count_endings(it) as u64);
    let rounds = [
        programs[0].div_ceil(PROGRAMS as u64),
        programs[1] * SECOND,
        endings[0] * 2 * LONGEST,
        endings[1] * 2 * LONGEST,
    ];
    rounds.into_iter().max().unwrap_or(0)
}

/// The sort whose turn it is, and the turn among those of its sort.
fn alternate(turn: usize) -> (Contacts, usize) {
    (Contacts::ALL[turn % 2], turn / 2)
}

/// Programs over one contact for the targets whose turn it is.
pub fn run_pairs(bench: &mut Bench) -> Compared {
    let Some(turn) = bench.turn(1) else {
        return Ok(());
    };
    for program in turn * PROGRAMS..(turn + 1) * PROGRAMS {
        run_targets(bench, Contacts::One, program)?;
    }
    Ok(())
}

/// A program over two contacts for the targets whose turn it is.
pub fn run_contacts(bench: &mut Bench) -> Compared {
    match bench.turn(SECOND) {
        Some(turn) => run_targets(bench, Contacts::Two, turn),
        None => Ok(()),
    }
}

/// The program of that number for the targets whose turn it is, sometimes on more samples as well.
fn run_targets(bench: &mut Bench, contacts: Contacts, program: usize) -> Compared {
    let turns = program * TARGETS..(program + 1) * TARGETS;
    let targets = turns.map(|turn| targets::target(&mut bench.random, contacts, turn));
    let targets: Vec<Target> = targets.collect();
    let case = bodies::of_targets(&mut bench.random, &targets);
    compare(bench, &case)?;
    match bench.random.one_in(MORE) {
        true => compare_more(bench, &case.program),
        false => Ok(()),
    }
}

/// A program with wide bodies.
pub fn run_wide(bench: &mut Bench) -> Compared {
    match bench.turn(WIDE) {
        Some(turn) => {
            let (contacts, _) = alternate(turn);
            let case = wide::wide(&mut bench.random, contacts);
            compare(bench, &case)
        }
        None => Ok(()),
    }
}

/// A program of the greatest length, for the ending whose turn it is.
pub fn run_longest(bench: &mut Bench) -> Compared {
    match bench.turn(LONGEST) {
        Some(turn) => {
            let (contacts, turn) = alternate(turn);
            let target = targets::ending(&mut bench.random, contacts, turn);
            let case = wide::longest(&mut bench.random, &target);
            compare(bench, &case)
        }
        None => Ok(()),
    }
}

/// Compares the evaluation on the case's samples, and counts what is taken.
fn compare(bench: &mut Bench, case: &Case) -> Compared {
    let traces = trace::packed(&case.samples);
    let table = traces::sufficient(&mut bench.random, case.cells);
    let cells = evaluation::table_left(bench, &case.program, &traces, table)?;
    let met = bench.report.met(traces.contacts());
    let counted = met.count(&case.program, &case.samples, &cells);
    counted.map_err(|text| text + &evaluation::story(&case.program, &traces, &cells))
}

/// Compares the evaluation on any samples.
fn compare_more(bench: &mut Bench, program: &[u8]) -> Compared {
    let functions = program::check(program).expect("the program is accepted");
    let samples = traces::fitting(&mut bench.random, program);
    let needed = search::cells_needed(&functions, &samples);
    let traces = trace::packed(&samples);
    let table = traces::sufficient(&mut bench.random, needed as usize);
    evaluation::compare(bench, program, &traces, table)
}
