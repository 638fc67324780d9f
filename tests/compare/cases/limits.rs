//! The limit of 16,777,216 cells or configurations, and numbers of them that 32 bits do not hold; the smallest record,
//! and the longest listing.

use super::super::generate::traces::garbage;
use super::super::oracle::program::{self, Contacts};
use super::super::oracle::record::{written_length, Content};
use super::super::oracle::trace::{packed, Samples};
use super::super::oracle::{search, MOST_CELLS};
use super::{evaluation, following, listing, record, Bench, Compared};

/// A table longer than the limit.
const LONG: usize = 17_000_000;
/// Functions beside main: parameters, the bits of the lists and of the guard's lists.
type Others = [(u8, u8, u8)];
/// Functions that with main need exactly 16,777,216 cells, and on how many samples of each contact: over two contacts
/// main alone needs them on the longest traces.
const FULL: [(Contacts, &Others, usize); 2] = [
    (
        Contacts::One,
        &[
            (4, 0x0F, 0),
            (4, 0x0E, 0),
            (4, 0x0D, 0),
            (4, 0x09, 0),
            (3, 0x03, 0),
            (2, 0x02, 0),
            (1, 0x01, 0),
            (0, 0x00, 0),
        ],
        62,
    ),
    (Contacts::Two, &[], 4_095),
];
/// Main over two contacts, which calls itself on the same lists.
const ITSELF: &[u8] = &[0x81, 2, 3, 2, 3, 0, 0x80, 0x10, 0x11];
/// The longest archive that is listed.
const LONGEST_ARCHIVE: usize = 32_768;

/// All of them, in the first round.
pub fn run(bench: &mut Bench) -> Compared {
    if bench.round > 0 {
        return Ok(());
    }
    smallest(bench)?;
    if let Some(path) = bench.listing {
        longest_listing(bench, path)?;
    }
    few_cells(bench)?;
    long_table(bench)?;
    match bench.exact {
        true => Ok(()),
        false => full_table(bench),
    }
}

/// So many samples of each contact, all 1.
fn ones(contacts: Contacts, n: usize) -> Samples {
    Samples {
        ram: vec![true; n],
        guard: (contacts == Contacts::Two).then(|| vec![true; n]),
    }
}

/// A record of the shortest program, in which main gives True, on so many samples.
fn short(contacts: Contacts, n: usize, verdict: u8) -> Vec<u8> {
    let program: &[u8] = match contacts {
        Contacts::One => &[1, 1, 1, 1, 0, 1],
        Contacts::Two => &[0x81, 2, 3, 2, 1, 0, 1],
    };
    let content = Content {
        program: program.to_vec(),
        traces: packed(&ones(contacts, n)),
        label: None,
        verdict,
        passes: 2,
    };
    content.bytes()
}

/// The smallest record of each sort, and its bytes without the first.
fn smallest(bench: &mut Bench) -> Compared {
    for (contacts, length) in [(Contacts::One, 19), (Contacts::Two, 22)] {
        let record = short(contacts, 0, 2);
        assert_eq!(record.len(), length);
        for bytes in [&record[..], &record[1..]] {
            record::compare_read(bench, bytes)?;
            record::compare_check(bench, bytes, vec![9; 2])?;
        }
    }
    Ok(())
}

/// As many records of a sort as an archive can have, first with their own verdict, then with the longest words. The
/// bytes that the smallest leave lengthen some by two bytes for each contact, a trace of ten samples, and so n by a
/// digit.
fn longest_listing(bench: &mut Bench, path: &str) -> Compared {
    for contacts in Contacts::ALL {
        for verdict in [2, 0] {
            let smallest = short(contacts, 0, verdict);
            let more = short(contacts, 10, verdict).len() - smallest.len();
            let records = LONGEST_ARCHIVE / smallest.len();
            let longer = LONGEST_ARCHIVE % smallest.len() / more;
            let mut archive = short(contacts, 10, verdict).repeat(longer);
            archive.extend(smallest.repeat(records - longer));
            assert!(LONGEST_ARCHIVE - archive.len() < more);
            listing::compare(bench, path, &archive)?;
        }
    }
    Ok(())
}

/// Main, which says whether the list is empty, and functions that all give True.
fn program_of(contacts: Contacts, others: &Others) -> Vec<u8> {
    let count = 1 + others.len() as u8;
    let mut program = match contacts {
        Contacts::One => vec![count, 1, 1, 2, 0, 0x22, 0x10],
        Contacts::Two => vec![0x80 + count, 2, 3, 2, 2, 0, 0x22, 0x10],
    };
    for (count, lists, guards) in others {
        program.extend([*count, *lists]);
        program.extend((contacts == Contacts::Two).then_some(*guards));
        program.extend([1, 0, 1]);
    }
    program
}

/// The cells a program needs.
fn needed(program: &[u8], samples: &Samples) -> u64 {
    let functions = program::check(program).expect("the program is accepted");
    search::cells_needed(&functions, samples)
}

/// More cells needed than the limit or than 32 bits hold, and few lent.
fn few_cells(bench: &mut Bench) -> Compared {
    for contacts in Contacts::ALL {
        let guards = contacts as u8;
        for other in [
            (2, 0x03, guards),
            (3, 0x07, 5 * guards),
            (4, 0x0F, 14 * guards),
        ] {
            for functions in [1, 31] {
                let program = program_of(contacts, &vec![other; functions]);
                for cells in [1_000, 5_000] {
                    four(bench, &program, &ones(contacts, 4_095), cells)?;
                }
            }
        }
    }
    Ok(())
}

/// One cell more than the limit, and a table that would hold them.
fn long_table(bench: &mut Bench) -> Compared {
    for (contacts, others, n) in FULL {
        let program = program_of(contacts, &[others, &[(0, 0, 0)]].concat());
        let samples = ones(contacts, n);
        assert_eq!(needed(&program, &samples), MOST_CELLS + 1);
        four(bench, &program, &samples, LONG)?;
    }
    Ok(())
}

/// Exactly as many cells as the limit; followed from main once to its end, and once for ever.
fn full_table(bench: &mut Bench) -> Compared {
    for (contacts, others, n) in FULL {
        let program = program_of(contacts, others);
        let samples = ones(contacts, n);
        assert_eq!(needed(&program, &samples), MOST_CELLS);
        let table = garbage(&mut bench.random, MOST_CELLS as usize + 1);
        evaluation::compare(bench, &program, &packed(&samples), table)?;
        following::compare(bench, &program, &packed(&samples))?;
    }
    let traces = packed(&ones(Contacts::Two, 4_095));
    following::compare(bench, ITSELF, &traces)
}

/// Following, and evaluating, recording and checking with a table of so many cells.
fn four(bench: &mut Bench, program: &[u8], samples: &Samples, cells: usize) -> Compared {
    let table = garbage(&mut bench.random, cells);
    let traces = packed(samples);
    following::compare(bench, program, &traces)?;
    evaluation::compare(bench, program, &traces, table.clone())?;
    let mut content = Content {
        program: program.to_vec(),
        traces: traces.clone(),
        label: None,
        verdict: 1,
        passes: 2,
    };
    record::compare_check(bench, &content.bytes(), table.clone())?;
    if traces.contacts() == Contacts::One {
        content.label = Some([1; 8]);
        record::compare_check(bench, &content.bytes(), table.clone())?;
    }
    let order = record::Order {
        program: program.to_vec(),
        out: vec![9; written_length(program, &traces)],
        traces,
        table,
    };
    record::compare_write(bench, order)
}
