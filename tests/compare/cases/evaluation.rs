//! Evaluating.

use super::super::generate::{programs, traces};
use super::super::oracle::program::Contacts;
use super::super::oracle::trace::Traces;
use super::super::{ffi, oracle};
use super::{cells_hex, hex, number, traces_hex, Bench, Compared, Findings};

/// One program on traces.
pub fn run(bench: &mut Bench) -> Compared {
    let random = &mut bench.random;
    let contacts = random.pick(&Contacts::ALL);
    let program = programs::any(random, contacts, 10);
    let traces = traces::any(random, &program, 10);
    let table = traces::table(random, &program, &traces);
    compare(bench, &program, &traces, table)
}

/// Compares an evaluation.
pub fn compare(bench: &mut Bench, program: &[u8], traces: &Traces, table: Vec<u16>) -> Compared {
    table_left(bench, program, traces, table).map(|_| ())
}

/// Compares an evaluation; gives the table as both leave it.
pub fn table_left(
    bench: &mut Bench,
    program: &[u8],
    traces: &Traces,
    mut table: Vec<u16>,
) -> Result<Vec<u16>, String> {
    let before = table.clone();
    let mut lent_table = bench.lend(&table);
    let mut answer = bench.random.words(2);
    let mut lent_answer = bench.lend(&answer);
    let want = expect(bench, program, traces, &mut table, &mut answer);
    let lent_program = bench.lend(program);
    let lent_traces = bench.lend_traces(traces);
    let have = ffi::evaluate(
        &lent_program,
        &lent_traces,
        &mut lent_table,
        &mut lent_answer,
    );
    let mut found = Findings::default();
    found.number(want, have);
    found.lent("program", &lent_program, program);
    found.traces(&lent_traces, traces);
    found.lent("table", &lent_table, &table);
    found.lent("answer", &lent_answer, &answer);
    bench.close(found, traces.contacts(), want, || {
        story(program, traces, &before)
    })?;
    Ok(table)
}

/// The number wanted; table and answer become what the library must leave.
fn expect(
    bench: &mut Bench,
    program: &[u8],
    traces: &Traces,
    table: &mut [u16],
    answer: &mut [u64],
) -> u32 {
    let worked_out = oracle::evaluate(program, traces, table);
    if let Ok(evaluation) = &worked_out {
        answer.copy_from_slice(&[evaluation.verdict.into(), evaluation.passes.into()]);
        bench.report.worked_out(traces.contacts(), evaluation);
    }
    number(&worked_out)
}

/// A case in hex.
pub fn story(program: &[u8], traces: &Traces, table: &[u16]) -> String {
    let (program, traces) = (hex(program), traces_hex(traces));
    let table = cells_hex(table);
    format!("program {program}\n{traces}\n{table}")
}
