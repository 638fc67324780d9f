//! The text the listing program prints.

use super::record;

const MOST_BYTES: usize = 32_768;
const CELLS: usize = 16_384;
const VERDICTS: [&str; 5] = ["forever", "no", "yes", "head", "tail"];

/// The listing of an archive.
pub fn text(archive: &[u8]) -> String {
    if archive.len() > MOST_BYTES {
        return "too long\n".to_string();
    }
    let mut text = String::new();
    let mut rest = archive;
    let mut listed = 0;
    while !rest.is_empty() {
        match record::read(rest) {
            Err(number) => return text + &format!("stop {} {}\n", listed + 1, number),
            Ok(parts) => {
                listed += 1;
                text += &line(listed, rest, &parts);
                rest = &rest[..parts.before()];
            }
        }
    }
    text + &format!("end {listed}\n")
}

/// The line of one record; a record of two contacts has a count of each, the ram's first.
fn line(ordinal: usize, rest: &[u8], parts: &record::Parts) -> String {
    let length = rest.len() - parts.before();
    let verdict = VERDICTS[usize::from(parts.verdict)];
    let checked = match record::check(rest, &mut vec![0; CELLS]) {
        Ok((true, _)) => "agrees".to_string(),
        Ok((false, _)) => "differs".to_string(),
        Err(number) => number.to_string(),
    };
    let counts: Vec<String> = parts.traces.each().map(|(_, n)| n.to_string()).collect();
    let counts = counts.join(" ");
    format!("{ordinal} {length} {counts} {verdict} {checked}\n")
}
