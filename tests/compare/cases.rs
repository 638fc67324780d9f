//! The kinds of cases. Each lends memory to the library and compares all it leaves with the oracle.

mod bodies;
mod digits;
mod evaluation;
mod executable;
mod following;
mod kinds;
mod limits;
mod listing;
mod papers;
mod passes;
mod program;
mod record;
mod ring;

use super::ffi::LentTrace;
use super::lent::{Lent, Word};
use super::oracle::program::Contacts;
use super::oracle::trace::{PerContact, Trace, Traces};
use super::random::Random;
use super::report::Report;

pub use digits::operations_on_mixes;
pub use kinds::operations;

/// What a case works with.
pub struct Bench<'a> {
    pub random: Random,
    pub report: &'a mut Report,
    /// The kind of case being run.
    pub kind: &'static str,
    pub round: u64,
    pub exact: bool,
    pub listing: Option<&'a str>,
    pub cases: Option<&'a str>,
}

/// What a kind of case gives: nothing, or the difference found.
pub type Compared = Result<(), String>;

/// The most cells of a table that are printed.
const SHOWN: usize = 256;

/// A kind of case: its name and what runs it in a round.
pub type Kind = (&'static str, fn(&mut Bench) -> Compared);

/// The kinds that together meet all of the language, every mix of parameters, and all that following meets.
pub const BODIES: [&str; 8] = [
    "pairs",
    "contacts",
    "wide",
    "longest",
    "kinds",
    "digits",
    "follow",
    "elsewhere",
];

pub const KINDS: [Kind; 19] = [
    ("papers", papers::run),
    ("check", program::run),
    ("evaluate", evaluation::run),
    ("read", record::run_read),
    ("ring-add", ring::run_add),
    ("ring-trace", ring::run_trace),
    ("write", record::run_write),
    ("check-record", record::run_check),
    ("limits", limits::run),
    ("listing", listing::run),
    ("pairs", bodies::run_pairs),
    ("contacts", bodies::run_contacts),
    ("wide", bodies::run_wide),
    ("longest", bodies::run_longest),
    ("passes", passes::run),
    ("kinds", kinds::run),
    ("digits", digits::run),
    ("follow", following::run),
    ("elsewhere", following::run_elsewhere),
];

/// After so many rounds the kinds of BODIES tried all they have.
pub fn rounds_for_all() -> u64 {
    let rounds = [
        bodies::rounds_for_all(),
        kinds::rounds_for_all(),
        digits::rounds_for_all(),
        following::rounds_for_all(),
    ];
    rounds.into_iter().max().unwrap_or(0)
}

/// With exact buffers, which are for slow runs, some kinds are run so many times as seldom.
const SELDOM: u64 = 20;

impl Bench<'_> {
    /// The turn of what is run in every so many rounds, if this round is one of them.
    fn turn(&self, every: u64) -> Option<usize> {
        let every = if self.exact { SELDOM * every } else { every };
        let turn = self.round.is_multiple_of(every);
        turn.then_some((self.round / every) as usize)
    }

    /// Lends memory with this content.
    fn lend<T: Word>(&mut self, content: &[T]) -> Lent<T> {
        let null = self.random.one_in(2);
        if self.exact {
            return Lent::new(content, 0, 0, null);
        }
        let (front, back) = (self.random.between(8, 23), self.random.between(8, 23));
        Lent::new(content, front, back, null)
    }

    /// Lends the memory of traces.
    fn lend_traces(&mut self, traces: &Traces) -> PerContact<LentTrace> {
        let mut lend = |trace: &Trace| (self.lend(&trace.bytes), trace.n);
        PerContact {
            ram: lend(&traces.ram),
            guard: traces.guard.as_ref().map(lend),
        }
    }

    /// Counts a case of a sort in which all agrees, or gives the difference with the case in hex.
    fn close(
        &mut self,
        found: Findings,
        contacts: Contacts,
        number: u32,
        story: impl Fn() -> String,
    ) -> Compared {
        if found.text.is_empty() {
            self.report.count(self.kind, contacts, number);
            return Ok(());
        }
        Err(found.text + &story())
    }
}

/// The differences found in a case, one a line.
#[derive(Default)]
struct Findings {
    text: String,
}

impl Findings {
    /// Compares the number answered; 0 is no refusal.
    fn number(&mut self, want: u32, have: u32) {
        if want != have {
            self.text += &format!("library answers {have}, oracle {want}\n");
        }
    }

    /// Compares all of the lent traces.
    fn traces(&mut self, have: &PerContact<LentTrace>, want: &Traces) {
        for ((have, _), want) in have.each().zip(want.each()) {
            self.lent("trace", have, &want.bytes);
        }
    }

    /// Compares all of a lent buffer.
    fn lent<T: Word>(&mut self, name: &str, have: &Lent<T>, want: &[T]) {
        if let Some(difference) = have.difference(want) {
            self.text += &format!("{name}: {difference}\n");
        }
    }
}

/// The number of an answer; 0 is no refusal.
fn number<T>(answer: &Result<T, u32>) -> u32 {
    match answer {
        Ok(_) => 0,
        Err(number) => *number,
    }
}

/// Traces in hexadecimal, with the numbers of their samples.
fn traces_hex(traces: &Traces) -> String {
    let trace = |trace: &Trace| format!("trace {}\nn {}", hex(&trace.bytes), trace.n);
    traces.each().map(trace).collect::<Vec<_>>().join("\n")
}

/// Bytes in hexadecimal.
fn hex(bytes: &[u8]) -> String {
    bytes.iter().map(|byte| format!("{byte:02x}")).collect()
}

/// A table's length and what its first cells held before.
fn cells_hex(table: &[u16]) -> String {
    let first = table.iter().take(SHOWN).map(|cell| format!(" {cell:x}"));
    let rest = if table.len() > SHOWN { " ..." } else { "" };
    format!(
        "table of {} cells:{}{rest}",
        table.len(),
        first.collect::<String>()
    )
}
