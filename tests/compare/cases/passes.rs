//! Single passes over tables of any content, run by the program of the scripts of cases.

use super::super::generate::bodies::{self, Case};
use super::super::generate::{targets, traces, wide};
use super::super::oracle;
use super::super::oracle::program::Contacts;
use super::super::oracle::trace::{self, Trace, Traces};
use super::super::script;
use super::{executable, hex, Bench, Compared};

/// In every so many rounds a script is run.
const EVERY: u64 = 48;
/// The passes of a script, and the most bytes of one; together they stay below the longest script.
pub const LINES: usize = 12;
pub const MOST_LINE: usize = 5_000;

/// A script of passes, if an executable is named.
pub fn run(bench: &mut Bench) -> Compared {
    match bench.cases {
        Some(path) if bench.round.is_multiple_of(EVERY) => {
            let lines: Vec<String> = (0..LINES).map(|_| any_line(bench)).collect();
            compare(bench, path, &lines)
        }
        _ => Ok(()),
    }
}

/// A pass of any program over a table, short enough for a script.
fn any_line(bench: &mut Bench) -> String {
    loop {
        let case = case(bench);
        let mut traces = trace::packed(&case.samples);
        if bench.random.one_in(12) {
            set_padding(bench, &mut traces);
        }
        let table = table(bench, &case);
        let line = line(&case.program, &traces, &table);
        if line.len() <= MOST_LINE {
            return line;
        }
    }
}

/// A pass of a program over a table, as a line of a script.
pub fn line(program: &[u8], traces: &Traces, table: &[u16]) -> String {
    let operation = match traces.contacts() {
        Contacts::One => "pass",
        Contacts::Two => "pass-two",
    };
    let fields: Vec<String> = traces.each().map(trace_fields).collect();
    let cells: Vec<String> = table.iter().map(u16::to_string).collect();
    format!(
        "case: {operation} {} {} {}\n",
        hex(program).to_uppercase(),
        fields.join(" "),
        cells.join("+")
    )
}

/// Sets a bit above the last sample of a contact.
fn set_padding(bench: &mut Bench, traces: &mut Traces) {
    let trace = match &mut traces.guard {
        Some(guard) if bench.random.one_in(2) => guard,
        _ => &mut traces.ram,
    };
    traces::set_padding(&mut bench.random, &mut trace.bytes, trace.n);
}

/// A trace as the fields of a script.
fn trace_fields(trace: &Trace) -> String {
    match trace.bytes.is_empty() {
        true => format!("- {}", trace.n),
        false => format!("{} {}", hex(&trace.bytes).to_uppercase(), trace.n),
    }
}

/// A program with bodies written on purpose.
fn case(bench: &mut Bench) -> Case {
    let random = &mut bench.random;
    let contacts = random.pick(&Contacts::ALL);
    if random.one_in(8) {
        return wide::wide(random, contacts);
    }
    let mut target = || {
        let turn = random.below(targets::count(contacts));
        targets::target(random, contacts, turn)
    };
    let targets = [target(), target()];
    bodies::of_targets(random, &targets)
}

/// A table as evaluating leaves it, with some cells undecided again and some of any content.
fn table(bench: &mut Bench, case: &Case) -> Vec<u16> {
    let functions = oracle::program::check(&case.program).expect("the program is accepted");
    let mut cells = oracle::search::evaluate(&functions, &case.samples).cells;
    let lengths: Vec<usize> = case.samples.each().map(Vec::len).collect();
    let random = &mut bench.random;
    let kept = random.between(0, 8);
    for cell in &mut cells {
        let any = random.word() as u16;
        let longest = 5 + random.pick(&lengths) as u16;
        if random.below(8) >= kept {
            *cell = random.pick(&[0, 0, 0, 0, 1, 2, 3, 4, 5, longest, longest + 1, any]);
        }
    }
    cells.extend([9; 4]);
    cells
}

/// Compares what the executable prints of a script.
pub fn compare(bench: &mut Bench, path: &str, lines: &[String]) -> Compared {
    let script = lines.concat();
    let (want, whole) = script::text(script.as_bytes());
    assert!(whole, "the script can be read");
    let have = executable::printed(path, script.as_bytes())?;
    let have = String::from_utf8_lossy(&have);
    let both = have.lines().zip(want.lines());
    for (line, (have, want)) in lines.iter().zip(both) {
        if have != want {
            return Err(format!("printed\n{have}\noracle\n{want}\nscript\n{line}"));
        }
        let contacts = match line.contains("pass-two") {
            true => Contacts::Two,
            false => Contacts::One,
        };
        bench.report.count(bench.kind, contacts, 0);
    }
    match have == want {
        true => Ok(()),
        false => Err(format!("printed\n{have}oracle\n{want}script\n{script}")),
    }
}
