//! Writing, reading and checking records.

use super::super::generate::{programs, records, traces};
use super::super::oracle::program::Contacts;
use super::super::oracle::trace::Traces;
use super::super::{ffi, oracle};
use super::evaluation::story;
use super::{cells_hex, hex, number, Bench, Compared, Findings};

/// What is handed in for a record.
pub struct Order {
    pub program: Vec<u8>,
    pub traces: Traces,
    pub table: Vec<u16>,
    pub out: Vec<u8>,
}

/// One record of a program on traces.
pub fn run_write(bench: &mut Bench) -> Compared {
    let random = &mut bench.random;
    let contacts = random.pick(&Contacts::ALL);
    let program = programs::any(random, contacts, 12);
    let traces = traces::any(random, &program, 15);
    let table = traces::table(random, &program, &traces);
    let needed = oracle::record::written_length(&program, &traces);
    let room = match random.below(10) {
        0 => needed - 1,
        1 => random.between(0, needed),
        2..=5 => needed,
        _ => needed + random.below(30),
    };
    let order = Order {
        program,
        traces,
        table,
        out: random.bytes(room),
    };
    compare_write(bench, order)
}

/// Compares the writing of a record.
pub fn compare_write(bench: &mut Bench, mut order: Order) -> Compared {
    let before = order.table.clone();
    let mut table = bench.lend(&order.table);
    let mut out = bench.lend(&order.out);
    let mut answer = bench.random.words(3);
    let mut lent_answer = bench.lend(&answer);
    let want = expect_write(bench, &mut order, &mut answer);
    let program = bench.lend(&order.program);
    let traces = bench.lend_traces(&order.traces);
    let have = ffi::write_record(&program, &traces, &mut table, &mut out, &mut lent_answer);
    let mut found = Findings::default();
    found.number(want, have);
    found.lent("program", &program, &order.program);
    found.traces(&traces, &order.traces);
    found.lent("table", &table, &order.table);
    found.lent("output", &out, &order.out);
    found.lent("answer", &lent_answer, &answer);
    bench.close(found, order.traces.contacts(), want, || {
        order_story(&order, &before)
    })
}

/// The number wanted; table, output and answer become what the library must leave.
fn expect_write(bench: &mut Bench, order: &mut Order, answer: &mut [u64]) -> u32 {
    let written = oracle::record::write(
        &order.program,
        &order.traces,
        &mut order.table,
        &mut order.out,
    );
    if let Ok((length, evaluation)) = &written {
        let (verdict, passes) = (evaluation.verdict, evaluation.passes);
        answer.copy_from_slice(&[*length as u64, verdict.into(), passes.into()]);
        bench.report.worked_out(order.traces.contacts(), evaluation);
    }
    number(&written)
}

/// An order in hex.
fn order_story(order: &Order, table: &[u16]) -> String {
    let case = story(&order.program, &order.traces, table);
    let room = order.out.len();
    format!("{case}\noutput of {room} bytes")
}

/// The sort that the format byte of a record speaks of, be it accepted or not.
pub fn contacts(bytes: &[u8]) -> Contacts {
    match bytes {
        [.., 3, _] => Contacts::Two,
        _ => Contacts::One,
    }
}

/// An archive read from its end, record by record until one is refused.
pub fn run_read(bench: &mut Bench) -> Compared {
    let archive = records::archive(&mut bench.random);
    let mut rest = &archive[..];
    while let Some(before) = compare_read(bench, rest)? {
        rest = &rest[..before];
    }
    Ok(())
}

/// Compares the reading of the last record; gives the bytes before it.
pub fn compare_read(bench: &mut Bench, bytes: &[u8]) -> Result<Option<usize>, String> {
    let mut parts = bench.random.words(14);
    let mut lent_parts = bench.lend(&parts);
    let read = oracle::record::read(bytes);
    let want = number(&read);
    if let Ok(read) = &read {
        parts.copy_from_slice(&read.numbers());
        let label = read.label_in(bytes);
        bench.report.read(read.traces.contacts(), label);
    }
    let lent = bench.lend(bytes);
    let have = ffi::read_record(&lent, &mut lent_parts);
    let mut found = Findings::default();
    found.number(want, have);
    found.lent("bytes", &lent, bytes);
    found.lent("parts", &lent_parts, &parts);
    bench.close(found, contacts(bytes), want, || {
        format!("bytes {}", hex(bytes))
    })?;
    Ok(read.ok().map(|read| read.before()))
}

/// A record checked, mostly a sound one, sometimes the last of an archive.
pub fn run_check(bench: &mut Bench) -> Compared {
    let random = &mut bench.random;
    let bytes = match random.below(3) {
        0 => records::archive(random),
        _ => records::content(random, 30).bytes(),
    };
    let table = match oracle::record::read(&bytes) {
        Ok(parts) => {
            let (program, traces) = (parts.program_in(&bytes), parts.traces_in(&bytes));
            traces::table(random, program, &traces)
        }
        Err(_) => {
            let length = random.below(50);
            traces::garbage(random, length)
        }
    };
    compare_check(bench, &bytes, table)
}

/// Compares the checking of the last record.
pub fn compare_check(bench: &mut Bench, bytes: &[u8], mut table: Vec<u16>) -> Compared {
    let before = table.clone();
    let mut lent_table = bench.lend(&table);
    let mut answer = bench.random.words(1);
    let mut lent_answer = bench.lend(&answer);
    let checked = oracle::record::check(bytes, &mut table);
    let want = number(&checked);
    if let Ok((agrees, evaluation)) = checked {
        answer[0] = u64::from(agrees);
        bench.report.worked_out(contacts(bytes), &evaluation);
    }
    let lent = bench.lend(bytes);
    let have = ffi::check_record(&lent, &mut lent_table, &mut lent_answer);
    let mut found = Findings::default();
    found.number(want, have);
    found.lent("bytes", &lent, bytes);
    found.lent("table", &lent_table, &table);
    found.lent("answer", &lent_answer, &answer);
    let story = || format!("bytes {}\n{}", hex(bytes), cells_hex(&before));
    bench.close(found, contacts(bytes), want, story)
}
