//! The sample archive: records of each verdict; one with another verdict, one with another pass count; a rule
//! that needs all of the listing's cells, and one that needs more; traces of no sample, of some and of many. The
//! older records are of format 1, two of them with a label that is set; those of format 2 come after them, and last
//! three of format 3, of a press with a ram contact and a guard contact.

use super::oracle::record::Content;
use super::oracle::trace::{self, Samples};
use super::oracle::{program, search};

const ALL_ONES: &[u8] = b"\x01\x01\x01\x0B\x00\x23\x22\x10\x01\x23\x20\x10\x80\x21\x10\x00";
const NO_TWO_ONES: &[u8] = b"\x01\x01\x01\x17\x00\x23\x22\x10\x01\x23\x20\x10\x23\x22\x21\x10\
    \x01\x23\x20\x21\x10\x00\x80\x21\x10\x80\x21\x10";
const FIRST: &[u8] = b"\x01\x01\x01\x02\x00\x20\x10";
const ITSELF: &[u8] = b"\x01\x01\x01\x02\x00\x80\x10";
const TO_THE_END: &[u8] = b"\x01\x01\x01\x03\x00\x80\x21\x10";
const BY_ANOTHER: &[u8] = b"\x02\x01\x01\x01\x00\x81\x00\x00\x01\x00\x01";
/// A function of two lists: 40,602 cells on 200 samples.
const SAME_LENGTH: &[u8] = b"\x02\x01\x01\x04\x00\x81\x10\x21\x10\x02\x03\x0D\x00\x23\x22\x10\
    \x01\x23\x22\x11\x00\x81\x21\x10\x21\x11";
const ALWAYS: &[u8] = b"\x01\x01\x01\x01\x00\x01";
/// The ram may not move while the guard is open: no sample of the ram is 1 where that of the guard is 0.
const GUARD_CLOSED: &[u8] = b"\x81\x02\x03\x02\x15\x00\x23\x22\x10\x01\x23\x20\x10\x23\x20\x11\
    \x80\x21\x10\x21\x11\x00\x80\x21\x10\x21\x11";
/// The label of a record of format 1 for which none was set.
const UNSET: Option<[u8; 8]> = Some([0; 8]);

/// 32 functions of a list: 16,384 cells on 511 samples.
fn fitting() -> Vec<u8> {
    [&[32][..], &[1, 1, 1, 0, 1].repeat(32)].concat()
}

/// A record of a rule on a trace, with the verdict and the pass count that it has.
fn recorded(program: &[u8], samples: &[bool], label: Option<[u8; 8]>) -> Content {
    let samples = Samples {
        ram: samples.to_vec(),
        guard: None,
    };
    worked_out(program, &samples, label)
}

/// A record of a rule on the traces of two contacts, given as characters 0 and 1.
fn guarded(program: &[u8], ram: &str, guard: &str) -> Content {
    let bits = |text: &str| text.chars().map(|bit| bit == '1').collect();
    let samples = Samples {
        ram: bits(ram),
        guard: Some(bits(guard)),
    };
    worked_out(program, &samples, None)
}

fn worked_out(program: &[u8], samples: &Samples, label: Option<[u8; 8]>) -> Content {
    let functions = program::check_for(samples.contacts(), program);
    let functions = functions.expect("the sample's programs are accepted");
    let evaluation = search::evaluate(&functions, samples);
    Content {
        program: program.to_vec(),
        traces: trace::packed(samples),
        label,
        verdict: evaluation.verdict,
        passes: evaluation.passes,
    }
}

/// The bytes of the archive.
pub fn archive() -> Vec<u8> {
    let once_in = |period: usize, n: usize| (0..n).map(|i| i % period == 0).collect::<Vec<_>>();
    let twelve_ones = [vec![true; 12], vec![false]].concat();
    let second_ones = [false, true].repeat(20);
    let mut yes = recorded(ALL_ONES, &[false; 4], UNSET);
    yes.verdict = 2;
    let mut early = recorded(BY_ANOTHER, &[], UNSET);
    early.passes = 2;
    let mut no = recorded(ALL_ONES, &[true; 9], None);
    no.verdict = 1;
    let contents = [
        recorded(ALL_ONES, &[true; 24], Some(*b"press 07")),
        recorded(ALL_ONES, &twelve_ones, UNSET),
        recorded(ITSELF, &[true, false, true], UNSET),
        recorded(FIRST, &[], UNSET),
        recorded(TO_THE_END, &second_ones, UNSET),
        recorded(NO_TWO_ONES, &once_in(3, 301), Some(*b"ladle 02")),
        recorded(SAME_LENGTH, &[true; 200], UNSET),
        recorded(&fitting(), &[false; 511], UNSET),
        yes,
        early,
        // From here on format 2: the first record's rule and trace, the smallest record, another verdict.
        recorded(ALL_ONES, &[true; 24], None),
        recorded(ALWAYS, &[], None),
        no,
        // From here on format 3: two strokes with the guard closed, a stroke that begins too early, no guard sample.
        guarded(GUARD_CLOSED, "000111000000111000", "001111110001111100"),
        guarded(GUARD_CLOSED, "000111000", "000011110"),
        guarded(GUARD_CLOSED, "1", ""),
    ];
    contents.iter().flat_map(Content::bytes).collect()
}
