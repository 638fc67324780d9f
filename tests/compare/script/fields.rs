//! The fields of a line: numbers, bytes and cells, with one space between them.

use std::str::Split;

/// A memory of a case: its content, and the part that is lent.
pub struct Memory<T> {
    pub content: Vec<T>,
    pub from: usize,
    pub to: usize,
}

impl<T> Memory<T> {
    pub fn lent(&self) -> &[T] {
        &self.content[self.from..self.to]
    }

    pub fn lent_mut(&mut self) -> &mut [T] {
        &mut self.content[self.from..self.to]
    }
}

/// The most bytes that are read in a case, and the most bytes and cells that may be written.
const GIVEN: usize = 40_000;
const WRITTEN: usize = 5_000;
const CELLS: usize = 5_000;

/// The fields that are not read yet, and the room for bytes that is left.
pub struct Fields<'a> {
    words: Split<'a, char>,
    room: usize,
}

/// A group of equal words, or of bytes that are repeated: the group, how often, and what follows it.
type Group<'a, T> = (Vec<T>, u64, &'a str);

impl<'a> Fields<'a> {
    pub fn new(text: &'a str) -> Self {
        Fields {
            words: text.split(' '),
            room: GIVEN,
        }
    }

    pub fn number(&mut self) -> Option<u64> {
        match decimal(self.words.next()?)? {
            (value, "") => Some(value),
            _ => None,
        }
    }

    /// Bytes that are read.
    pub fn bytes(&mut self) -> Option<Memory<u8>> {
        let memory = memory(self.words.next()?, self.room, bytes_group)?;
        self.room -= memory.content.len();
        Some(memory)
    }

    /// Bytes that may be written.
    pub fn written(&mut self) -> Option<Memory<u8>> {
        memory(self.words.next()?, WRITTEN, bytes_group)
    }

    /// Cells, which may be written.
    pub fn cells(&mut self) -> Option<Memory<u16>> {
        memory(self.words.next()?, CELLS, cells_group)
    }

    /// That nothing is left.
    pub fn end(&mut self) -> Option<()> {
        match self.words.next() {
            None => Some(()),
            Some(_) => None,
        }
    }
}

/// Figures at the front of a text, and what follows them.
fn decimal(text: &str) -> Option<(u64, &str)> {
    let end = text.find(|figure: char| !figure.is_ascii_digit());
    let (figures, rest) = text.split_at(end.unwrap_or(text.len()));
    Some((figures.parse().ok()?, rest))
}

/// The number of repetitions that may stand after a group, at least 1, and what follows it.
fn repetitions(text: &str) -> Option<(u64, &str)> {
    let Some(count) = text.strip_prefix('*') else {
        return Some((1, text));
    };
    decimal(count).filter(|(count, _)| *count > 0)
}

/// Pairs of hexadecimal digits, with capitals.
fn bytes_group(text: &str) -> Option<Group<'_, u8>> {
    let digit = |byte: char| byte.is_ascii_digit() || ('A'..='F').contains(&byte);
    let end = text.find(|byte| !digit(byte)).unwrap_or(text.len());
    let (digits, rest) = text.split_at(end);
    if digits.is_empty() || digits.len() % 2 == 1 {
        return None;
    }
    let pairs = (0..digits.len()).step_by(2);
    let group = pairs.map(|at| u8::from_str_radix(&digits[at..at + 2], 16).ok());
    let (count, rest) = repetitions(rest)?;
    Some((group.collect::<Option<_>>()?, count, rest))
}

/// A number of 16 bits.
fn cells_group(text: &str) -> Option<Group<'_, u16>> {
    let (value, rest) = decimal(text)?;
    let (count, rest) = repetitions(rest)?;
    Some((vec![value.try_into().ok()?], count, rest))
}

/// Groups with marks between them; brackets stand around the lent part.
fn memory<'a, T: Copy>(
    text: &'a str,
    most: usize,
    group: fn(&'a str) -> Option<Group<'a, T>>,
) -> Option<Memory<T>> {
    let mut content = Vec::new();
    let (mut from, mut to) = (0, None);
    let mut rest = text;
    if rest.is_empty() {
        return None;
    }
    while let Some(mark) = rest.chars().next() {
        if "[]+-".contains(mark) {
            rest = &rest[1..];
            match mark {
                '[' => from = content.len(),
                ']' => to = Some(content.len()),
                _ => {}
            }
            continue;
        }
        let (words, count, after) = group(rest)?;
        let room = (most - content.len()) as u64;
        if count.checked_mul(words.len() as u64)? > room {
            return None;
        }
        content.extend(words.repeat(count as usize));
        rest = after;
    }
    let to = to.unwrap_or(content.len());
    (from <= to).then_some(Memory { content, from, to })
}
