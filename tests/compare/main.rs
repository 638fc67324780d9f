//! Compares the library, called through its C interface, with a second implementation of document 01 and of
//! requests 01, 02, 03, 05 and 06 of document 02.
//!
//! Random and damaged programs of both sorts (over one contact and over two), traces, tables, rings, records and
//! archives are handed to both, and programs with the traces or in a format of the other sort. The number answered,
//! every answer and all of the lent memory must be the same, and the input must stay as it was.
//!
//! Some programs are written on purpose (kinds `pairs`, `contacts`, `wide` and `longest`): each sort of node in each
//! place, over one contact at each depth, wide bodies, and programs of 4,096 bytes. What they come to is walked a
//! third time, as trees, to count what was taken: the lines `taken` and `met`. Others (kind `kinds`) have one node of a
//! kind that its place does not demand, in each nesting of two places, or (kind `digits`) functions of each mix of
//! parameters, whose bodies tell the values of each cell.
//!
//! Rules that only loop (kind `follow`) are followed, and evaluated with a table as well: both must come to the same
//! verdict. Some count through all their configurations before they end. In others (kind `elsewhere`) one call does not
//! only loop, in each place where it may stand.
//!
//! To build and run it:
//!
//! ```text
//! rustc -O --edition 2021 tests/compare/main.rs -C link-arg=path/libgateway.a -o compare
//! ./compare
//! valgrind --error-exitcode=1 ./compare --exact --rounds 100
//! ```
//!
//! Options:
//! - `--seed S` and `--rounds R`: which cases and how many; a seed gives the same cases each time.
//! - `--from R`: the first round, to run one again alone with `--rounds 1`.
//! - `--exact`: each buffer is a heap allocation of exactly its length, with no words around it.
//! - `--listing PATH`: also runs the listing executable on archives and compares what it prints.
//! - `--cases PATH`: also runs the executable of the scripts of cases, on single passes over tables of any
//!   content, and compares what it prints.
//! - `--only KIND,KIND`: only these kinds of cases.
//! - `--loud`: names each round and kind before it is run, to find one that does not return.
//!
//! A difference is printed with its seed, its round and the case in hexadecimal, and the exit status is 1.
//! The status is 1 also where all kinds are run for 1,000 rounds or more and a number from 1 to 26 is not answered over
//! one contact and over two (18 and 19, which are the ring's, at all), or a record with a label, with one of zeros, with
//! none or with a guard trace is never read, and where the rounds are so many that all was tried (some 5,700) and
//! something else that `met` counts was never met, or an operation never answered 16, 25 or 26 over one contact and over
//! two.
//!
//! Not covered: buffers that overlap, null pointers with a length other than 0, pass counts above some thousands, more
//! than one evaluation of each sort with 16,777,216 cells and more than one run of as many calls (none with `--exact`),
//! and the exit status of the listing executable.

mod cases;
mod ffi;
mod generate;
mod language;
mod lent;
mod met;
mod options;
// The expected texts use other parts of it.
#[allow(dead_code)]
mod oracle;
mod random;
mod report;
mod script;

use std::process::exit;

use cases::{operations, operations_on_mixes, rounds_for_all, Bench, BODIES, KINDS};
use met::Tally;
use options::{Options, FULL, USAGE};
use random::Random;
use report::Report;

fn main() {
    let options = Options::read(std::env::args().skip(1)).unwrap_or_else(|fault| {
        eprintln!("{fault}\n{USAGE}");
        exit(2);
    });
    if let Some(name) = options.only.iter().find(|name| !known(name)) {
        eprintln!("unknown kind {name}\n{USAGE}");
        exit(2);
    }
    println!("compare: seed {}, rounds {}", options.seed, options.rounds);
    let mut report = Report::default();
    for round in options.from..options.from + options.rounds {
        run_round(&options, round, &mut report);
    }
    end(&options, &report);
}

/// Whether there is a kind of case of that name.
fn known(name: &str) -> bool {
    KINDS.iter().any(|(kind, _)| *kind == name)
}

/// Runs every kind of case once; a difference ends the program.
fn run_round(options: &Options, round: u64, report: &mut Report) {
    for (place, (kind, run)) in KINDS.iter().enumerate() {
        if !options.wants(kind) {
            continue;
        }
        if options.loud {
            eprintln!("round {round} {kind}");
        }
        let mut bench = Bench {
            random: Random::new(options.seed, round, place as u64),
            report,
            kind,
            round,
            exact: options.exact,
            listing: options.listing.as_deref(),
            cases: options.cases.as_deref(),
        };
        if let Err(difference) = run(&mut bench) {
            let seed = options.seed;
            println!("compare: difference in {kind}, seed {seed}, round {round}\n{difference}");
            exit(1);
        }
    }
}

/// Prints the counts; a long run must have met every refusal number, every format and all of the language.
fn end(options: &Options, report: &Report) {
    print!("{}", report.lines());
    let mut tallies = Vec::new();
    if options.only.is_empty() && options.rounds >= FULL {
        tallies.extend([report.numbers(), report.records()]);
    }
    let wanted = BODIES.iter().all(|kind| options.wants(kind)) && !options.exact;
    if wanted && options.rounds >= rounds_for_all() {
        tallies.extend(report.language());
        let operations = operations(options.listing.is_some());
        tallies.push(report.kind_faults(operations));
        let operations = operations_on_mixes(options.cases.is_some());
        tallies.push(report.mixes(operations));
    }
    let missing: Vec<String> = tallies.iter().flat_map(Tally::never_met).collect();
    if !missing.is_empty() {
        println!("compare: never met: {}", missing.join("; "));
        exit(1);
    }
    if !tallies.is_empty() {
        let met: Vec<String> = tallies.iter().map(Tally::to_string).collect();
        println!("compare: met {}", met.join(", "));
    }
    println!("compare: {} cases agree", report.cases());
}
