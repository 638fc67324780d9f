//! Scripts of cases: what the second implementation says of each line. crates/cases/src/main.rt tells the form.

mod fields;
mod operations;
mod print;

/// The longest script.
const MOST_BYTES: usize = 65_536;

/// The text of a script, and whether every line could be read.
pub fn text(script: &[u8]) -> (String, bool) {
    if script.len() > MOST_BYTES {
        let words = format!("cannot read more than {MOST_BYTES} bytes\n");
        return (words, false);
    }
    let mut text = String::new();
    for (place, line) in script.split_inclusive(|byte| *byte == b'\n').enumerate() {
        match case(line) {
            Some(printed) => text += &printed,
            None => return (format!("{text}cannot read line {}\n", place + 1), false),
        }
    }
    (text, true)
}

/// What a line gives; nothing if it cannot be read.
fn case(line: &[u8]) -> Option<String> {
    let line = std::str::from_utf8(line).ok()?.strip_suffix('\n')?;
    if line.is_empty() || line.starts_with('#') {
        return Some(String::new());
    }
    let (name, rest) = line.split_once(": ")?;
    if name.contains(':') {
        return None;
    }
    let (operation, fields) = rest.split_once(' ')?;
    let printed = operations::run(operation, fields::Fields::new(fields))?;
    Some(format!("{name}:{printed}\n"))
}
