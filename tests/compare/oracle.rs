//! A second implementation of document 01 and of requests 01, 02, 03, 05 and 06 of document 02, used as the oracle.
//!
//! Each operation works on copies of the lent memory and leaves them as the library must leave its own.

pub mod follow;
pub mod listing;
pub mod pass;
pub mod program;
pub mod record;
pub mod ring;
pub mod search;
pub mod trace;

use follow::{Followed, Rules};
use program::Function;
use search::Evaluation;
use trace::{Samples, Traces};

/// The largest number of cells an evaluation may need, and of configurations that following may have.
pub const MOST_CELLS: u64 = 16_777_216;

/// The check that the cells needed are not more than the limit or the table.
fn enough(functions: &[Function], samples: &Samples, table: &[u16]) -> Result<(), u32> {
    let needed = search::cells_needed(functions, samples);
    match needed > MOST_CELLS || needed > table.len() as u64 {
        true => Err(21),
        false => Ok(()),
    }
}

/// Works out a program's cells on samples if the table suffices, and stores them in it.
pub fn fill(
    functions: &[Function],
    samples: &Samples,
    table: &mut [u16],
) -> Result<Evaluation, u32> {
    enough(functions, samples, table)?;
    let evaluation = search::evaluate(functions, samples);
    table[..evaluation.cells.len()].copy_from_slice(&evaluation.cells);
    Ok(evaluation)
}

/// A program and traces to take it on: the program check, with the sort that the traces say, and the trace check.
fn prepared(program: &[u8], traces: &Traces) -> Result<(Vec<Function>, Samples), u32> {
    let functions = program::check_for(traces.contacts(), program)?;
    Ok((functions, trace::lent(traces)?))
}

/// Evaluating: program check, trace check, table.
pub fn evaluate(program: &[u8], traces: &Traces, table: &mut [u16]) -> Result<Evaluation, u32> {
    let (functions, samples) = prepared(program, traces)?;
    fill(&functions, &samples, table)
}

/// Following: program check, places of the calls, trace check, number of configurations.
pub fn follow(program: &[u8], traces: &Traces) -> Result<Followed, u32> {
    let functions = program::check_for(traces.contacts(), program)?;
    let rules = Rules::new(&functions).ok_or(24u32)?;
    let samples = trace::lent(traces)?;
    match search::cells_needed(&functions, &samples) > MOST_CELLS {
        true => Err(21),
        false => Ok(rules.follow(&samples)),
    }
}

/// A single pass over a table as it is: how many outcomes it stored.
pub fn make_pass(program: &[u8], traces: &Traces, table: &mut [u16]) -> Result<u64, u32> {
    let (functions, samples) = prepared(program, traces)?;
    enough(&functions, &samples, table)?;
    Ok(pass::once(&functions, &samples, table))
}

/// The verdict and the pass count by passes alone, for a program and traces that are accepted.
pub fn by_passes(program: &[u8], traces: &Traces, cells: &mut [u16]) -> Option<(u8, u32)> {
    let (functions, samples) = prepared(program, traces).ok()?;
    let passes = pass::all(&functions, &samples, cells);
    let main = search::main_cell(&functions, &samples);
    Some((cells[main] as u8, passes))
}
