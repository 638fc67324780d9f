//! What each operation prints: the answer, and every memory that it may write.

use super::super::oracle::follow::Followed;
use super::super::oracle::program::Contacts;
use super::super::oracle::search::Evaluation;
use super::super::oracle::trace::{Trace, Traces};
use super::super::oracle::{self, listing, program, record, ring};
use super::fields::{Fields, Memory};
use super::print;

/// The most configurations for which following is held against a table.
const MOST_TABLE: u64 = 1 << 20;

/// Runs an operation; nothing if there is none of that name or its fields cannot be read.
pub fn run(operation: &str, mut fields: Fields) -> Option<String> {
    match operation {
        "add" => add(&mut fields),
        "take" => take(&mut fields),
        "fill" => fill(&mut fields),
        "check" => check(&mut fields),
        "evaluate" => evaluate(&mut fields, Contacts::One),
        "evaluate-two" => evaluate(&mut fields, Contacts::Two),
        "pass" => pass(&mut fields, Contacts::One),
        "pass-two" => pass(&mut fields, Contacts::Two),
        "follow" => follow(&mut fields, Contacts::One),
        "follow-two" => follow(&mut fields, Contacts::Two),
        "write" => write(&mut fields, Contacts::One),
        "write-two" => write(&mut fields, Contacts::Two),
        "read" => read(&mut fields),
        "check-record" | "examine" => check_record(&mut fields),
        "last" => last(&mut fields),
        "walk" => walk(&mut fields),
        "list" => list(&mut fields),
        _ => None,
    }
}

/// An answer in words, or its refusal.
fn told<T>(answer: Result<T, u32>, words: impl Fn(T) -> String) -> String {
    match answer {
        Ok(value) => words(value),
        Err(number) => format!(" refused {number}"),
    }
}

fn verdict(evaluation: &Evaluation) -> String {
    format!(
        " verdict {} passes {}",
        evaluation.verdict, evaluation.passes
    )
}

fn cells(table: &Memory<u16>) -> String {
    format!(", cells {}", print::cells(table))
}

fn bytes(memory: &Memory<u8>) -> String {
    format!(", bytes {}", print::bytes(memory))
}

/// The answer of adding a sample, and the state after it.
fn added(answer: Result<(), u32>, state: &[u64]) -> String {
    let words = told(answer, |()| " stored".to_string());
    format!("{words} next {} count {}", state[0], state[1])
}

fn add(fields: &mut Fields) -> Option<String> {
    let mut slots = fields.written()?;
    let mut state = [fields.number()?, fields.number()?];
    let sample = fields.bytes()?.lent().first().copied().unwrap_or(0);
    fields.end()?;
    let answer = ring::add(slots.lent_mut(), &mut state, sample);
    Some(added(answer, &state) + &bytes(&slots))
}

fn take(fields: &mut Fields) -> Option<String> {
    let slots = fields.bytes()?;
    let state = [fields.number()?, fields.number()?];
    let mut out = fields.written()?;
    fields.end()?;
    let answer = ring::take(slots.lent(), &state, out.lent_mut());
    Some(told(answer, |n| format!(" samples {n}")) + &bytes(&out))
}

fn fill(fields: &mut Fields) -> Option<String> {
    let mut slots = fields.written()?;
    let samples = fields.bytes()?;
    fields.end()?;
    let mut state = [0, 0];
    let mut answer = Ok(());
    for sample in samples.lent() {
        answer = ring::add(slots.lent_mut(), &mut state, *sample);
    }
    Some(added(answer, &state) + &bytes(&slots))
}

fn check(fields: &mut Fields) -> Option<String> {
    let program = fields.bytes()?;
    fields.end()?;
    Some(told(program::check(program.lent()), |_| {
        " accepted".to_string()
    }))
}

/// A trace, and how many samples it shall hold.
fn trace(fields: &mut Fields) -> Option<Trace> {
    let bytes = fields.bytes()?.lent().to_vec();
    let n = fields.number()?;
    Some(Trace { bytes, n })
}

/// The trace of the ram, and of two contacts that of the guard.
fn traces(fields: &mut Fields, contacts: Contacts) -> Option<Traces> {
    let ram = trace(fields)?;
    let guard = match contacts {
        Contacts::One => None,
        Contacts::Two => Some(trace(fields)?),
    };
    Some(Traces { ram, guard })
}

fn evaluate(fields: &mut Fields, contacts: Contacts) -> Option<String> {
    let program = fields.bytes()?;
    let traces = traces(fields, contacts)?;
    let mut table = fields.cells()?;
    fields.end()?;
    let answer = oracle::evaluate(program.lent(), &traces, table.lent_mut());
    if let Ok(evaluation) = &answer {
        same_by_passes(evaluation, program.lent(), &traces);
    }
    Some(told(answer, |evaluation| verdict(&evaluation)) + &cells(&table))
}

/// Derivations and passes must come to the same cells, verdict and pass count.
fn same_by_passes(evaluation: &Evaluation, program: &[u8], traces: &Traces) {
    let mut table = vec![0; evaluation.cells.len()];
    let found = oracle::by_passes(program, traces, &mut table);
    assert_eq!(found, Some((evaluation.verdict, evaluation.passes)));
    assert_eq!(table, evaluation.cells);
}

fn pass(fields: &mut Fields, contacts: Contacts) -> Option<String> {
    let program = fields.bytes()?;
    let traces = traces(fields, contacts)?;
    let mut table = fields.cells()?;
    fields.end()?;
    let answer = oracle::make_pass(program.lent(), &traces, table.lent_mut());
    Some(told(answer, |stored| format!(" stored {stored}")) + &cells(&table))
}

fn follow(fields: &mut Fields, contacts: Contacts) -> Option<String> {
    let program = fields.bytes()?;
    let traces = traces(fields, contacts)?;
    fields.end()?;
    let answer = oracle::follow(program.lent(), &traces);
    if let Ok(followed) = &answer {
        same_by_table(followed, program.lent(), &traces);
    }
    Some(told(answer, |followed| {
        format!(" verdict {} calls {}", followed.verdict, followed.calls)
    }))
}

/// Following and a table must come to the same verdict.
fn same_by_table(followed: &Followed, program: &[u8], traces: &Traces) {
    if followed.configurations <= MOST_TABLE {
        let mut table = vec![0; followed.configurations as usize];
        let evaluation = oracle::evaluate(program, traces, &mut table);
        let verdict = evaluation.map(|it| it.verdict);
        assert_eq!(verdict, Ok(followed.verdict));
    }
}

fn write(fields: &mut Fields, contacts: Contacts) -> Option<String> {
    let program = fields.bytes()?;
    let traces = traces(fields, contacts)?;
    let mut table = fields.cells()?;
    let mut out = fields.written()?;
    fields.end()?;
    let answer = record::write(program.lent(), &traces, table.lent_mut(), out.lent_mut());
    let words = told(answer, |(length, evaluation)| {
        format!(" length {length}{}", verdict(&evaluation))
    });
    Some(words + &cells(&table) + &bytes(&out))
}

/// The parts of a record: the format, start and length of each that is in the bytes, and the numbers. Format 3 alone
/// has a guard trace.
fn parts(parts: record::Parts) -> String {
    let (program, (trace, n)) = (parts.program, parts.traces.ram);
    let guard = match parts.traces.guard {
        Some(((start, length), m)) => format!(" guard {start} {length} m {m}"),
        None => String::new(),
    };
    let label = match parts.label {
        Some((start, length)) => format!("label {start} {length}"),
        None => "no label".to_string(),
    };
    format!(
        " format {} program {} {} trace {} {} n {n}{guard} {label} verdict {} passes {}",
        parts.format, program.0, program.1, trace.0, trace.1, parts.verdict, parts.passes
    )
}

fn read(fields: &mut Fields) -> Option<String> {
    let bytes = fields.bytes()?;
    fields.end()?;
    Some(told(record::read(bytes.lent()), parts))
}

fn check_record(fields: &mut Fields) -> Option<String> {
    let bytes = fields.bytes()?;
    let mut table = fields.cells()?;
    fields.end()?;
    let reading = told(record::read(bytes.lent()), parts);
    let checked = record::check(bytes.lent(), table.lent_mut());
    let words = told(checked, |(agrees, evaluation)| {
        let word = if agrees { "agrees" } else { "differs" };
        format!(" {word}{}", verdict(&evaluation))
    });
    Some(format!(" read{reading}, check{words}{}", cells(&table)))
}

/// What stands last among so many bytes of an archive, and how many stand before it if the walk goes on.
fn step(archive: &[u8], left: u64) -> (String, Option<u64>) {
    let left = left.min(archive.len() as u64) as usize;
    if left == 0 {
        return (" end".to_string(), None);
    }
    let reading = record::read(&archive[..left]);
    let before = reading.as_ref().ok().map(|parts| parts.before() as u64);
    (told(reading, parts), before)
}

fn last(fields: &mut Fields) -> Option<String> {
    let archive = fields.bytes()?;
    let left = fields.number()?;
    fields.end()?;
    Some(step(archive.lent(), left).0)
}

fn walk(fields: &mut Fields) -> Option<String> {
    let archive = fields.bytes()?;
    fields.end()?;
    let mut text = String::new();
    let mut next = Some(archive.lent().len() as u64);
    while let Some(left) = next {
        let (words, before) = step(archive.lent(), left);
        text += &format!("\nlast of {left}:{words}");
        next = before;
    }
    Some(text)
}

fn list(fields: &mut Fields) -> Option<String> {
    let archive = fields.bytes()?;
    fields.end()?;
    let text = listing::text(archive.lent());
    Some(format!("\n{}", text.strip_suffix('\n')?))
}
