//! Runs an executable of the library on standard input.

use std::io::{Read, Write};
use std::process::{Child, ChildStdin, Command, Stdio};

/// What an executable prints of some bytes; words instead if it cannot be run to its end.
pub fn printed(path: &str, input: &[u8]) -> Result<Vec<u8>, String> {
    run(path, input).map_err(|fault| format!("{path}: {fault}"))
}

fn run(path: &str, input: &[u8]) -> Result<Vec<u8>, String> {
    let mut child = start(path).map_err(|error| error.to_string())?;
    let stdin = child.stdin.take().ok_or("no standard input")?;
    let mut stdout = child.stdout.take().ok_or("no standard output")?;
    let bytes = input.to_vec();
    let feeder = std::thread::spawn(move || feed(stdin, &bytes));
    let mut printed = Vec::new();
    let read = stdout.read_to_end(&mut printed);
    read.map_err(|error| error.to_string())?;
    feeder.join().map_err(|_| "feeding failed")?;
    let status = child.wait().map_err(|error| error.to_string())?;
    match status.code() {
        Some(_) => Ok(printed),
        None => Err("ended by a signal".to_string()),
    }
}

/// Starts the executable with both ends in hand.
fn start(path: &str) -> std::io::Result<Child> {
    Command::new(path)
        .stdin(Stdio::piped())
        .stdout(Stdio::piped())
        .spawn()
}

/// Hands the bytes over; a reader that stops early is no fault.
fn feed(mut stdin: ChildStdin, bytes: &[u8]) {
    let _ = stdin.write_all(bytes);
}
