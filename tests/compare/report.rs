//! Counts of the cases, and of the numbers and the records they met.

use std::collections::BTreeMap;

use super::language::{mix_name, mixes, over};
use super::met::{Met, Tally};
use super::oracle::follow::Followed;
use super::oracle::program::{Contacts, Fault};
use super::oracle::search::Evaluation;

/// The refusal numbers, and those that rings alone meet.
const NUMBERS: std::ops::RangeInclusive<u32> = 1..=26;
const OF_RINGS: [u32; 2] = [18, 19];

/// The records that are told apart where one is read.
const RECORDS: [&str; 4] = ["a label", "a label of zeros", "no label", "a guard trace"];

pub struct Report {
    /// For each kind of case and sort, how often each number was answered; 0 is no refusal.
    kinds: BTreeMap<(&'static str, Contacts), BTreeMap<u32, u64>>,
    /// For each kind of case and sort, how often each mix of parameters was compared.
    mixes: BTreeMap<(&'static str, Contacts), BTreeMap<usize, u64>>,
    /// How often each of RECORDS was read.
    records: [u64; 4],
    verdicts: [[u64; 5]; 2],
    most_passes: u32,
    most_cells: usize,
    /// The verdicts of following.
    followed: [[u64; 5]; 2],
    most_calls: u64,
    met: [Met; 2],
}

impl Default for Report {
    fn default() -> Self {
        Report {
            kinds: BTreeMap::new(),
            mixes: BTreeMap::new(),
            records: [0; 4],
            verdicts: [[0; 5]; 2],
            most_passes: 0,
            most_cells: 0,
            followed: [[0; 5]; 2],
            most_calls: 0,
            met: Contacts::ALL.map(Met::new),
        }
    }
}

impl Report {
    /// Counts one case in which library and oracle agree.
    pub fn count(&mut self, kind: &'static str, contacts: Contacts, number: u32) {
        let counts = self.kinds.entry((kind, contacts)).or_default();
        *counts.entry(number).or_default() += 1;
    }

    /// Counts a case with functions of the mix of parameters of that number.
    pub fn mix(&mut self, kind: &'static str, contacts: Contacts, number: usize) {
        let counts = self.mixes.entry((kind, contacts)).or_default();
        *counts.entry(number).or_default() += 1;
    }

    /// Counts a record that was read, by its label and its contacts.
    pub fn read(&mut self, contacts: Contacts, label: Option<&[u8]>) {
        let zeros = |label: &[u8]| label.iter().all(|byte| *byte == 0);
        let place = match (contacts, label) {
            (Contacts::One, Some(label)) => usize::from(zeros(label)),
            (Contacts::One, None) => 2,
            (Contacts::Two, _) => 3,
        };
        self.records[place] += 1;
    }

    /// Counts what an evaluation came to.
    pub fn worked_out(&mut self, contacts: Contacts, evaluation: &Evaluation) {
        self.verdicts[contacts as usize][usize::from(evaluation.verdict)] += 1;
        self.most_passes = self.most_passes.max(evaluation.passes);
        self.most_cells = self.most_cells.max(evaluation.cells.len());
    }

    /// Counts what following came to.
    pub fn followed(&mut self, contacts: Contacts, followed: &Followed) {
        self.followed[contacts as usize][usize::from(followed.verdict)] += 1;
        self.most_calls = self.most_calls.max(followed.calls);
        self.met(contacts).count_followed(followed);
    }

    /// What was met of the language, in programs of a sort.
    pub fn met(&mut self, contacts: Contacts) -> &mut Met {
        &mut self.met[contacts as usize]
    }

    /// The number of cases in all.
    pub fn cases(&self) -> u64 {
        self.kinds.values().flat_map(BTreeMap::values).sum()
    }

    /// How often a number was answered, over a sort.
    fn times(&self, contacts: Contacts, number: u32) -> u64 {
        let of_sort = self.kinds.iter().filter(|((_, it), _)| *it == contacts);
        of_sort.filter_map(|(_, counts)| counts.get(&number)).sum()
    }

    /// Every refusal number, over both sorts but for those of rings.
    pub fn numbers(&self) -> Tally {
        let mut counts = Vec::new();
        for number in NUMBERS {
            let [one, two] = Contacts::ALL.map(|it| self.times(it, number));
            match OF_RINGS.contains(&number) {
                true => counts.push((format!("number {number}"), one)),
                false => {
                    counts.push((format!("number {number} over one contact"), one));
                    counts.push((format!("number {number} over two contacts"), two));
                }
            }
        }
        Tally::new("numbers by sort", counts)
    }

    /// Every sort of kind fault over both sorts, in kinds of cases.
    pub fn kind_faults(&self, kinds: &[&'static str]) -> Tally {
        let mut counts = Vec::new();
        for kind in kinds {
            for contacts in Contacts::ALL {
                for fault in [Fault::Body, Fault::Operand, Fault::Argument] {
                    let numbers = self.kinds.get(&(*kind, contacts));
                    let times = numbers.and_then(|it| it.get(&fault.number()));
                    let words = format!("number {} in {kind}{}", fault.number(), over(contacts));
                    counts.push((words, times.copied().unwrap_or(0)));
                }
            }
        }
        Tally::new("kind faults by operation", counts)
    }

    /// Every mix of parameters over both sorts, in kinds of cases.
    pub fn mixes(&self, kinds: &[&'static str]) -> Tally {
        let mut counts = Vec::new();
        for kind in kinds {
            for contacts in Contacts::ALL {
                let met = self.mixes.get(&(*kind, contacts));
                for (number, mix) in mixes(contacts).iter().enumerate() {
                    let times = met.and_then(|it| it.get(&number));
                    let words = format!("{} in {kind}{}", mix_name(mix), over(contacts));
                    counts.push((words, times.copied().unwrap_or(0)));
                }
            }
        }
        Tally::new("mixes of parameters by operation", counts)
    }

    /// Every sort of record.
    pub fn records(&self) -> Tally {
        let counts = RECORDS.iter().zip(self.records);
        let counts = counts.map(|(name, read)| (format!("record with {name}"), read));
        Tally::new("sorts of records", counts.collect())
    }

    /// All that was met of the language.
    pub fn language(&self) -> Vec<Tally> {
        self.met.iter().flat_map(Met::tallies).collect()
    }

    /// A line for each kind of case and sort, one on the records read, those on the verdicts, and what they met of the
    /// language.
    pub fn lines(&self) -> String {
        let lines = self.kinds.iter().map(|(kind, counts)| line(*kind, counts));
        let met = self.met.iter().map(Met::lines);
        lines.collect::<String>()
            + &self.read_records()
            + &self.worked_out_lines()
            + &met.collect::<String>()
            + &self.numbers().line()
    }

    /// The line on all records that were read.
    fn read_records(&self) -> String {
        let [label, zeros, none, guard] = self.records;
        format!(
            "records read: with a label {label}, with one of zeros {zeros}, with none {none}, \
             with a guard trace {guard}\n"
        )
    }

    /// A line on all evaluations of each sort, one on all runs that were followed, and one on the largest.
    fn worked_out_lines(&self) -> String {
        let mut text = String::new();
        for (name, verdicts) in [("verdicts", self.verdicts), ("followed", self.followed)] {
            for contacts in Contacts::ALL {
                let [forever, no, yes, head, tail] = verdicts[contacts as usize];
                text += &format!(
                    "{name}{}: forever {forever}, no {no}, yes {yes}, head {head}, tail {tail}\n",
                    over(contacts)
                );
            }
        }
        let (passes, cells) = (self.most_passes, self.most_cells);
        let calls = self.most_calls;
        text + &format!("most passes {passes}, most cells {cells}, most calls {calls}\n")
    }
}

/// The line of one kind of case: the cases, those not refused, and how often each number was met.
fn line((kind, contacts): (&str, Contacts), counts: &BTreeMap<u32, u64>) -> String {
    let cases: u64 = counts.values().sum();
    let accepted = counts.get(&0).unwrap_or(&0);
    let over = over(contacts);
    let mut text = format!("{kind}{over}: {cases} cases, not refused {accepted}");
    for (place, (number, count)) in counts.range(1..).enumerate() {
        text += if place == 0 { ", refused" } else { "" };
        text += &format!(" {number}:{count}");
    }
    text + "\n"
}
