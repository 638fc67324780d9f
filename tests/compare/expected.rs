//! Prints what the programs must print, by the second implementation alone: nothing of the library is linked.
//!
//! ```text
//! rustc -O --edition 2021 tests/compare/expected.rs -o expected
//! ./expected SCRIPT      what the program `cases` must print of a script
//! ./expected --sample    the bytes of the sample archive
//! ./expected --listing   what the program `listing` must print of the sample
//! ```
//!
//! crates/cases/src/main.rt tells the form of a script. A line that cannot be read ends the text with its number,
//! and the exit status is 1.

// The comparison uses other parts of it.
#[allow(dead_code)]
mod oracle;
mod sample;
mod script;

use std::io::{self, Write};
use std::process::exit;

const USAGE: &str = "expected SCRIPT | --sample | --listing";

fn main() {
    let mut words = std::env::args().skip(1);
    let (Some(word), None) = (words.next(), words.next()) else {
        fail(USAGE);
    };
    let done = match word.as_str() {
        "--sample" => write(&sample::archive()),
        "--listing" => write(oracle::listing::text(&sample::archive()).as_bytes()),
        option if option.starts_with("--") => fail(USAGE),
        path => run(path),
    };
    if !done {
        exit(1);
    }
}

/// Prints what a script must give; false where it cannot be read to its end.
fn run(path: &str) -> bool {
    let script = std::fs::read(path).unwrap_or_else(|fault| fail(&format!("{path}: {fault}")));
    let (text, whole) = script::text(&script);
    write(text.as_bytes()) && whole
}

fn write(bytes: &[u8]) -> bool {
    io::stdout().write_all(bytes).is_ok()
}

fn fail(words: &str) -> ! {
    eprintln!("{words}");
    exit(2);
}
