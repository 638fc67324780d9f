//! Memories in words: runs of equal words, with brackets around the lent part.

use super::fields::Memory;

/// The runs that are printed one by one.
const MOST_RUNS: usize = 400;

/// The repetitions of a byte from which they are counted and not written out.
const COUNTED: usize = 4;

/// A memory of bytes, in hexadecimal.
pub fn bytes(memory: &Memory<u8>) -> String {
    bracketed(memory, byte_runs)
}

/// A memory of cells, in decimal.
pub fn cells(memory: &Memory<u16>) -> String {
    bracketed(memory, cell_runs)
}

fn bracketed<T>(memory: &Memory<T>, runs: fn(&[T]) -> String) -> String {
    let before = runs(&memory.content[..memory.from]);
    let after = runs(&memory.content[memory.to..]);
    format!("{before}[{}]{after}", runs(memory.lent()))
}

fn byte_runs(content: &[u8]) -> String {
    let mut text = String::new();
    let mut counted_before = false;
    let runs: Vec<&[u8]> = content.chunk_by(|a, b| a == b).collect();
    for run in runs.iter().take(MOST_RUNS) {
        let counted = run.len() >= COUNTED;
        if !text.is_empty() && (counted || counted_before) {
            text += "+";
        }
        text += &match counted {
            true => format!("{:02X}*{}", run[0], run.len()),
            false => format!("{:02X}", run[0]).repeat(run.len()),
        };
        counted_before = counted;
    }
    text + &rest(&runs)
}

fn cell_runs(content: &[u16]) -> String {
    let runs: Vec<&[u16]> = content.chunk_by(|a, b| a == b).collect();
    let shown = runs.iter().take(MOST_RUNS).map(|run| match run.len() {
        1 => run[0].to_string(),
        count => format!("{}*{count}", run[0]),
    });
    shown.collect::<Vec<_>>().join("+") + &rest(&runs)
}

/// How many words the runs beyond those printed have, and their sum.
fn rest<T: Copy + Into<u64>>(runs: &[&[T]]) -> String {
    let words: Vec<T> = runs
        .iter()
        .skip(MOST_RUNS)
        .flat_map(|run| run.to_vec())
        .collect();
    if words.is_empty() {
        return String::new();
    }
    let mixed = |sum: u64, word: &T| (31 * sum + (*word).into()) % 65_521;
    format!(
        "+.. {} more, sum {}",
        words.len(),
        words.iter().fold(0, mixed)
    )
}
