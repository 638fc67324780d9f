//! The listing executable, run on archives through standard input.

use super::super::generate::records;
use super::super::oracle::{self, program::Contacts};
use super::{executable, hex, record, Bench, Compared};

/// In every so many rounds one archive is listed.
const EVERY: u64 = 16;

/// One archive, if an executable is named.
pub fn run(bench: &mut Bench) -> Compared {
    match bench.listing {
        Some(path) if bench.round.is_multiple_of(EVERY) => {
            let archive = archive(bench);
            compare(bench, path, &archive)
        }
        _ => Ok(()),
    }
}

/// An archive, at times of the largest length or one more.
fn archive(bench: &mut Bench) -> Vec<u8> {
    let random = &mut bench.random;
    match random.below(12) {
        0 => Vec::new(),
        1 => records::of_length(random, 32_768),
        2 => records::of_length(random, 32_769),
        3 => random.bytes(40_000),
        _ => records::archive(random),
    }
}

/// Compares what the executable prints.
pub fn compare(bench: &mut Bench, path: &str, archive: &[u8]) -> Compared {
    let want = oracle::listing::text(archive);
    let have = executable::printed(path, archive)
        .map_err(|fault| format!("{fault}, archive {}", hex(archive)))?;
    if have != want.as_bytes() {
        let have = String::from_utf8_lossy(&have);
        let case = hex(archive);
        return Err(format!("printed\n{have}oracle\n{want}archive {case}"));
    }
    let (contacts, number) = match want.contains("stop") {
        true => refused(archive),
        false => (Contacts::One, 0),
    };
    bench.report.count(bench.kind, contacts, number);
    Ok(())
}

/// The sort of the record that is refused in an archive, and its number.
fn refused(archive: &[u8]) -> (Contacts, u32) {
    let mut rest = archive;
    loop {
        match oracle::record::read(rest) {
            Ok(parts) => rest = &rest[..parts.before()],
            Err(number) => return (record::contacts(rest), number),
        }
    }
}
