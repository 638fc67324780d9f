//! Programs with one kind fault: a node of a kind that its place does not demand, in every nesting of two places. Each
//! program is checked, and handed to one of the other operations that read programs.

use super::super::generate::bodies::{self, Case};
use super::super::generate::{records, targets, traces};
use super::super::language::Place;
use super::super::oracle;
use super::super::oracle::program::{Contacts, Fault};
use super::super::oracle::record::Content;
use super::super::oracle::trace;
use super::{evaluation, following, hex, listing, number, program, record, Bench, Compared};

/// Over each sort there is a program in every so many rounds.
const EVERY: [u64; 2] = [8, 3];

/// The operations as they are counted; the last is run if an executable is named.
const CHECK: &str = "kinds, check";
const EVALUATE: &str = "kinds, evaluate";
const FOLLOW: &str = "kinds, follow";
const WRITE: &str = "kinds, write";
const READ: &str = "kinds, read";
const CHECK_RECORD: &str = "kinds, check-record";
const LISTING: &str = "kinds, listing";
const OPERATIONS: [&str; 7] = [CHECK, EVALUATE, FOLLOW, WRITE, READ, CHECK_RECORD, LISTING];

/// The operations that meet kind faults, with the listing or without.
pub fn operations(listing: bool) -> &'static [&'static str] {
    match listing {
        true => &OPERATIONS,
        false => &OPERATIONS[..6],
    }
}

/// After so many rounds every nesting had its turn.
pub fn rounds_for_all() -> u64 {
    let rounds = |it: Contacts| targets::count_faults(it) as u64 * EVERY[it as usize];
    Contacts::ALL.into_iter().map(rounds).max().unwrap_or(0)
}

/// A program over each sort for the nesting whose turn it is.
pub fn run(bench: &mut Bench) -> Compared {
    for contacts in Contacts::ALL {
        if let Some(turn) = bench.turn(EVERY[contacts as usize]) {
            run_fault(bench, contacts, turn)?;
        }
    }
    Ok(())
}

fn run_fault(bench: &mut Bench, contacts: Contacts, turn: usize) -> Compared {
    let (nesting, target) = targets::fault(&mut bench.random, contacts, turn);
    let case = bodies::of_targets(&mut bench.random, std::slice::from_ref(&target));
    let place = target.place_at_fault().expect("the node is at fault");
    by_its_place(&case.program, place)?;
    bench.kind = CHECK;
    program::compare(bench, &case.program)?;
    compare_other(bench, contacts, &case)?;
    let met = bench.report.met(contacts);
    met.count_fault(nesting, place, target.sort);
    Ok(())
}

/// Says so if the oracle tells another number than the place of the node at fault has.
fn by_its_place(program: &[u8], place: Place) -> Compared {
    let have = number(&oracle::program::check(program));
    let want = place.fault().map_or(0, Fault::number);
    match have == want {
        true => Ok(()),
        false => Err(format!(
            "oracle answers {have}, the place has {want}\nprogram {}",
            hex(program)
        )),
    }
}

/// Compares one of the other operations.
fn compare_other(bench: &mut Bench, contacts: Contacts, case: &Case) -> Compared {
    let traces = trace::packed(&case.samples);
    let table = traces::table(&mut bench.random, &case.program, &traces);
    let label = (contacts == Contacts::One && bench.random.one_in(2))
        .then(|| bench.random.word().to_le_bytes());
    let content = Content {
        program: case.program.clone(),
        traces,
        label,
        verdict: bench.random.below(5) as u8,
        passes: bench.random.between(1, 300) as u32,
    };
    match (bench.random.below(9), bench.listing) {
        (0 | 1, _) => {
            bench.kind = EVALUATE;
            evaluation::compare(bench, &case.program, &content.traces, table)
        }
        (2 | 3, _) => {
            bench.kind = WRITE;
            let room = bench.random.below(200);
            let order = record::Order {
                program: content.program,
                traces: content.traces,
                table,
                out: bench.random.bytes(room),
            };
            record::compare_write(bench, order)
        }
        (4 | 5, _) => {
            bench.kind = READ;
            record::compare_read(bench, &content.bytes()).map(|_| ())
        }
        (6, _) => {
            bench.kind = FOLLOW;
            following::compare(bench, &case.program, &content.traces)
        }
        (7, Some(path)) => {
            bench.kind = LISTING;
            let sort = bench.random.pick(&Contacts::ALL);
            let last = records::sound(&mut bench.random, sort);
            let archive = [content.bytes(), last.bytes()].concat();
            listing::compare(bench, path, &archive)
        }
        _ => {
            bench.kind = CHECK_RECORD;
            record::compare_check(bench, &content.bytes(), table)
        }
    }
}
