//! Functions of every mix of parameters, with bodies that tell the values of each: evaluated whole, and passed over once
//! where some of their cells are decided, by the program of the scripts of cases.

use super::super::generate::bodies::Case;
use super::super::generate::{mixes, traces};
use super::super::language;
use super::super::oracle::program::{self, Contacts, Kind};
use super::super::oracle::search;
use super::super::oracle::trace::{self, Samples};
use super::super::random::Random;
use super::passes::{self, LINES, MOST_LINE};
use super::{evaluation, Bench, Compared};

/// In every so many rounds a program is evaluated, and a script of passes is run.
const EVALUATIONS: u64 = 1;
const SCRIPTS: u64 = 12;
/// The most functions of the mix in a program that is evaluated, and in one that is passed over.
const MANY: usize = 7;
const FEW: usize = 3;
/// From one turn to the next it is so many mixes, so that a few turns meet both sorts. It has no factor in common with
/// the number of all.
const STRIDE: usize = 61;

/// The operations as they are counted; the second is run if an executable is named.
const EVALUATE: &str = "digits, evaluate";
const PASS: &str = "digits, pass";

/// The operations that meet every mix, with passes or without.
pub fn operations_on_mixes(passes: bool) -> &'static [&'static str] {
    match passes {
        true => &[EVALUATE, PASS],
        false => &[EVALUATE],
    }
}

/// After so many rounds every mix had its turn.
pub fn rounds_for_all() -> u64 {
    let mixes = all().len() as u64;
    let scripts = mixes.div_ceil(LINES as u64);
    (mixes * EVALUATIONS).max(scripts * SCRIPTS)
}

/// A mix of parameters of a sort, and its number among those of the sort.
type Numbered = (Contacts, usize, Vec<Kind>);

/// All mixes of both sorts.
fn all() -> Vec<Numbered> {
    let of_sort = |contacts: Contacts| {
        let mixes = language::mixes(contacts).into_iter().enumerate();
        mixes.map(move |(number, mix)| (contacts, number, mix))
    };
    Contacts::ALL.into_iter().flat_map(of_sort).collect()
}

/// The mixes whose turn it is, so many in each turn.
fn in_turn(turn: usize, count: usize) -> Vec<Numbered> {
    let all = all();
    let places = (turn * count..(turn + 1) * count).map(|it| it * STRIDE % all.len());
    places.map(|place| all[place].clone()).collect()
}

/// A program for the mix whose turn it is, and a script of passes if an executable is named.
pub fn run(bench: &mut Bench) -> Compared {
    if let Some(turn) = bench.turn(EVALUATIONS) {
        for mix in in_turn(turn, 1) {
            evaluate(bench, &mix)?;
        }
    }
    match bench.cases {
        Some(path) if bench.round.is_multiple_of(SCRIPTS) => {
            let turn = (bench.round / SCRIPTS) as usize;
            pass(bench, path, &in_turn(turn, LINES))
        }
        _ => Ok(()),
    }
}

/// Compares the evaluation of a program.
fn evaluate(bench: &mut Bench, (contacts, number, mix): &Numbered) -> Compared {
    let case = mixes::of_mix(&mut bench.random, *contacts, mix, MANY);
    let traces = trace::packed(&case.samples);
    let table = traces::sufficient(&mut bench.random, case.cells);
    bench.kind = EVALUATE;
    evaluation::compare(bench, &case.program, &traces, table)?;
    bench.report.mix(EVALUATE, *contacts, *number);
    Ok(())
}

/// Compares a script with a pass for each of some mixes.
fn pass(bench: &mut Bench, path: &str, mixes: &[Numbered]) -> Compared {
    let mut lines = Vec::new();
    for (contacts, _, mix) in mixes {
        lines.push(line(&mut bench.random, *contacts, mix));
    }
    bench.kind = PASS;
    passes::compare(bench, path, &lines)?;
    for (contacts, number, _) in mixes {
        bench.report.mix(PASS, *contacts, *number);
    }
    Ok(())
}

/// A pass of a program, short enough for a script.
fn line(random: &mut Random, contacts: Contacts, mix: &[Kind]) -> String {
    loop {
        let case = mixes::of_mix(random, contacts, mix, FEW);
        let table = table(random, &case);
        let line = passes::line(&case.program, &trace::packed(&case.samples), &table);
        if line.len() <= MOST_LINE {
            return line;
        }
    }
}

/// Which cells of a function are decided. A row has the values of the last parameter.
#[derive(Clone, Copy)]
enum Decided {
    All,
    None,
    Even,
    Odd,
    TwoAndTwo,
    ButLastOfRow,
    ButFirstOfRow,
    ButLast,
    AtRandom,
}

impl Decided {
    const RULES: [Decided; 9] = [
        Decided::All,
        Decided::None,
        Decided::Even,
        Decided::Odd,
        Decided::TwoAndTwo,
        Decided::ButLastOfRow,
        Decided::ButFirstOfRow,
        Decided::ButLast,
        Decided::AtRandom,
    ];

    /// Whether the cell at a place is decided, in a function with rows and cells of so many.
    fn at(self, random: &mut Random, place: usize, row: usize, cells: usize) -> bool {
        match self {
            Decided::All => true,
            Decided::None => false,
            Decided::Even => place.is_multiple_of(2),
            Decided::Odd => !place.is_multiple_of(2),
            Decided::TwoAndTwo => place % 4 < 2,
            Decided::ButLastOfRow => !(place + 1).is_multiple_of(row),
            Decided::ButFirstOfRow => !place.is_multiple_of(row),
            Decided::ButLast => place + 1 != cells,
            Decided::AtRandom => random.one_in(2),
        }
    }
}

/// The number of values of a kind.
fn values(kind: Kind, samples: &Samples) -> usize {
    match kind {
        Kind::Bool => 2,
        Kind::List(contact) => samples.of(contact).len() + 1,
    }
}

/// A table whose cells are decided by a rule for each function, by other outcomes than evaluating gives. The others
/// hold 0, or in some functions any number that is no outcome of the kind.
fn table(random: &mut Random, case: &Case) -> Vec<u16> {
    let functions = program::check(&case.program).expect("the program is accepted");
    let right = search::evaluate(&functions, &case.samples).cells;
    let mut table = Vec::new();
    for function in &functions {
        let values: Vec<usize> = function
            .parameters
            .iter()
            .map(|kind| values(*kind, &case.samples))
            .collect();
        let (row, cells) = (*values.last().unwrap_or(&1), values.iter().product());
        let rule = random.pick(&Decided::RULES);
        let foreign = random.one_in(3);
        for place in 0..cells {
            let right = right[table.len()];
            table.push(match rule.at(random, place, row, cells) {
                true => other_outcome(random, function.result, &case.samples, right),
                false if foreign => no_outcome(random, function.result, &case.samples),
                false => 0,
            });
        }
    }
    table.extend([9; 4]);
    table
}

/// An outcome of a kind other than a given one.
fn other_outcome(random: &mut Random, kind: Kind, samples: &Samples, than: u16) -> u16 {
    let of_kind = (0..values(kind, samples)).map(|digit| kind.value(digit as u16).cell());
    let mut outcomes: Vec<u16> = of_kind.chain([3, 4]).collect();
    outcomes.retain(|outcome| *outcome != than);
    random.pick(&outcomes)
}

/// A number that counts as undecided where an outcome of a kind is due.
fn no_outcome(random: &mut Random, kind: Kind, samples: &Samples) -> u16 {
    let too_long = 5 + values(kind, samples) as u16;
    match kind {
        Kind::Bool => random.pick(&[0, 5, 6, u16::MAX]),
        Kind::List(_) => random.pick(&[0, 1, 2, too_long, u16::MAX]),
    }
}
