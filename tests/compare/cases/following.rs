//! Following the calls of rules that only loop, and the places where a call does not.

use super::super::generate::{counters, elsewhere, loops, programs, traces};
use super::super::oracle::follow::Followed;
use super::super::oracle::program::Contacts;
use super::super::oracle::trace::Traces;
use super::super::random::Random;
use super::super::{ffi, oracle};
use super::{evaluation, hex, number, traces_hex, Bench, Compared, Findings};

/// In every so many rounds there is a program of each sort with a call that does not only loop.
const EVERY: u64 = 12;
/// The most configurations with which a run is held against a table, and the most visits of cells there.
const MOST_TABLE: u64 = 30_000;
const MOST_VISITS: u64 = 100_000;

/// The evaluations as they are counted.
const EVALUATE: &str = "follow, evaluate";

/// After so many rounds a call stood in every place.
pub fn rounds_for_all() -> u64 {
    let rounds = |it: Contacts| elsewhere::count(it) as u64 * EVERY;
    Contacts::ALL.into_iter().map(rounds).max().unwrap_or(0)
}

/// One program on traces, and where it is followed the same with a table.
pub fn run(bench: &mut Bench) -> Compared {
    let random = &mut bench.random;
    let contacts = random.pick(&Contacts::ALL);
    let (program, traces) = any(random, contacts);
    let followed = followed(bench, &program, &traces)?;
    match followed {
        Some(followed) => by_table(bench, &program, &traces, &followed),
        None => Ok(()),
    }
}

/// A program and traces: mostly one that only loops, sometimes one that counts or any other.
fn any(random: &mut Random, contacts: Contacts) -> (Vec<u8>, Traces) {
    match random.below(10) {
        0 | 1 => {
            let (program, samples) = counters::counter(random, contacts);
            let traces = traces::lent(random, &samples, 40);
            (program, traces)
        }
        2 => {
            let program = programs::any(random, contacts, 4);
            let traces = traces::any(random, &program, 10);
            (program, traces)
        }
        _ => {
            let program = loops::any(random, contacts, 12);
            let samples = traces::followed(random, &program);
            let traces = traces::lent(random, &samples, 10);
            (program, traces)
        }
    }
}

/// Compares what following answers.
pub fn compare(bench: &mut Bench, program: &[u8], traces: &Traces) -> Compared {
    followed(bench, program, traces).map(|_| ())
}

/// Compares what following answers; gives what it came to if it was not refused.
fn followed(
    bench: &mut Bench,
    program: &[u8],
    traces: &Traces,
) -> Result<Option<Followed>, String> {
    let contacts = traces.contacts();
    let mut answer = bench.random.words(2);
    let mut lent_answer = bench.lend(&answer);
    let followed = oracle::follow(program, traces);
    if let Ok(followed) = &followed {
        answer.copy_from_slice(&[followed.verdict.into(), followed.calls]);
        bench.report.followed(contacts, followed);
    }
    let want = number(&followed);
    let lent_program = bench.lend(program);
    let lent_traces = bench.lend_traces(traces);
    let have = ffi::follow(&lent_program, &lent_traces, &mut lent_answer);
    let mut found = Findings::default();
    found.number(want, have);
    found.lent("program", &lent_program, program);
    found.traces(&lent_traces, traces);
    found.lent("answer", &lent_answer, &answer);
    bench.close(found, contacts, want, || story(program, traces))?;
    Ok(followed.ok())
}

/// Says so if the oracle itself answers another verdict with a table, and compares the evaluation, where that is not too
/// much work.
fn by_table(bench: &mut Bench, program: &[u8], traces: &Traces, followed: &Followed) -> Compared {
    if followed.configurations > MOST_TABLE {
        return Ok(());
    }
    let cells = followed.configurations as usize;
    let table = traces::sufficient(&mut bench.random, cells);
    let evaluation = oracle::evaluate(program, traces, &mut table.clone());
    let (verdict, visits) = match &evaluation {
        Ok(evaluation) => (Some(evaluation.verdict), evaluation.visits),
        Err(_) => (None, 0),
    };
    if verdict != Some(followed.verdict) {
        let story = story(program, traces);
        return Err(format!(
            "oracle follows to {followed:?}, with a table to {verdict:?}\n{story}"
        ));
    }
    if visits > MOST_VISITS {
        return Ok(());
    }
    bench.kind = EVALUATE;
    evaluation::compare(bench, program, traces, table)
}

/// A program over each sort with a call in the place whose turn it is, on any traces.
pub fn run_elsewhere(bench: &mut Bench) -> Compared {
    let Some(turn) = bench.turn(EVERY) else {
        return Ok(());
    };
    for contacts in Contacts::ALL {
        let place = turn % elsewhere::count(contacts);
        let program = elsewhere::program(&mut bench.random, contacts, place);
        let samples = traces::followed(&mut bench.random, &program);
        let traces = traces::lent(&mut bench.random, &samples, 4);
        let of_its_sort = traces.contacts() == contacts;
        by_its_place(&program, &traces, if of_its_sort { 24 } else { 6 })?;
        compare(bench, &program, &traces)?;
        if of_its_sort {
            bench.report.met(contacts).count_elsewhere(place);
        }
    }
    Ok(())
}

/// Says so if the oracle tells another number of a program that has a call elsewhere.
fn by_its_place(program: &[u8], traces: &Traces, want: u32) -> Compared {
    let have = number(&oracle::follow(program, traces));
    match have == want {
        true => Ok(()),
        false => Err(format!(
            "oracle answers {have}, the call has {want}\n{}",
            story(program, traces)
        )),
    }
}

/// A case in hex.
fn story(program: &[u8], traces: &Traces) -> String {
    format!("program {}\n{}", hex(program), traces_hex(traces))
}
