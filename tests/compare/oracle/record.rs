//! Records: writing, reading, checking.

use super::program::Contacts;
use super::search::Evaluation;
use super::trace::{PerContact, Trace, Traces};
use super::{fill, program, trace};

const MARK: u8 = 0x52;
/// The bytes of the shortest trailer.
const SHORTEST_TRAILER: usize = 8;
/// Verdict byte and pass count together, which stand before the trailer.
const VERDICT_AND_PASSES: usize = 5;

/// What a format has.
#[derive(Clone, Copy)]
pub struct Format {
    /// The trailer's format byte.
    number: u8,
    /// The bytes of the label, which stands after the traces.
    label: usize,
    /// The sort of its programs: a trace for each contact, and a count of its samples in the trailer.
    contacts: Contacts,
}

const LABELLED: Format = Format {
    number: 1,
    label: 8,
    contacts: Contacts::One,
};
const UNLABELLED: Format = Format {
    number: 2,
    label: 0,
    contacts: Contacts::One,
};
const GUARDED: Format = Format {
    number: 3,
    label: 0,
    contacts: Contacts::Two,
};

/// The formats that older releases read: without request 02, and without request 05.
pub const OLDER_RELEASES: [&[Format]; 2] = [&[LABELLED], &[LABELLED, UNLABELLED]];
/// The formats that are read.
const FORMATS: &[Format] = &[LABELLED, UNLABELLED, GUARDED];

impl Format {
    /// The bytes between the traces and the trailer.
    fn after_traces(self) -> usize {
        self.label + VERDICT_AND_PASSES
    }

    /// The bytes of the trailer: two distances, the counts, format and mark.
    fn trailer(self) -> usize {
        6 + 2 * self.contacts.contacts().len()
    }
}

/// What stands in a record. Label and traces decide the format.
#[derive(Clone)]
pub struct Content {
    pub program: Vec<u8>,
    pub traces: Traces,
    pub label: Option<[u8; 8]>,
    pub verdict: u8,
    pub passes: u32,
}

/// Where a part stands in the archive's bytes: its start and its length.
pub type Span = (usize, usize);

/// Where a record's parts stand in the archive's bytes.
pub struct Parts {
    pub format: u8,
    pub program: Span,
    /// Of each contact the trace, and the number of its samples.
    pub traces: PerContact<(Span, u16)>,
    pub label: Option<Span>,
    pub verdict: u8,
    pub passes: u32,
}

/// The format for traces with a label or none.
fn format(traces: &Traces, label: Option<[u8; 8]>) -> Format {
    match (traces.contacts(), label) {
        (Contacts::One, Some(_)) => LABELLED,
        (Contacts::One, None) => UNLABELLED,
        (Contacts::Two, None) => GUARDED,
        (Contacts::Two, Some(_)) => panic!("format 3 has no label"),
    }
}

impl Content {
    /// The record's bytes, with a trailer that fits them.
    pub fn bytes(&self) -> Vec<u8> {
        let format = format(&self.traces, self.label);
        let traces: usize = self.traces.each().map(|it| it.bytes.len()).sum();
        let second = (traces + format.after_traces()) as u16;
        let first = second.wrapping_add(self.program.len() as u16);
        let mut bytes = self.program.clone();
        bytes.extend(self.traces.each().flat_map(|it| &it.bytes));
        bytes.extend(self.label.iter().flatten());
        bytes.push(self.verdict);
        bytes.extend(self.passes.to_le_bytes());
        bytes.extend(first.to_le_bytes());
        bytes.extend(second.to_le_bytes());
        for trace in self.traces.each() {
            bytes.extend((trace.n as u16).to_le_bytes());
        }
        bytes.extend([format.number, MARK]);
        bytes
    }
}

impl Parts {
    /// The bytes before the record.
    pub fn before(&self) -> usize {
        self.program.0
    }

    /// The program, of the bytes that the record was read from.
    pub fn program_in<'a>(&self, bytes: &'a [u8]) -> &'a [u8] {
        let (start, length) = self.program;
        &bytes[start..start + length]
    }

    /// The traces, of the bytes that the record was read from.
    pub fn traces_in(&self, bytes: &[u8]) -> Traces {
        self.traces.map(|((start, length), n)| Trace {
            bytes: bytes[*start..start + length].to_vec(),
            n: (*n).into(),
        })
    }

    /// The label, of the bytes that the record was read from.
    pub fn label_in<'a>(&self, bytes: &'a [u8]) -> Option<&'a [u8]> {
        let (start, length) = self.label?;
        Some(&bytes[start..start + length])
    }

    /// The parts as the C interface numbers them; 'no label' and no guard trace have zeros.
    pub fn numbers(&self) -> [u64; 14] {
        let label = self.label.unwrap_or((0, 0));
        let (trace, n) = self.traces.ram;
        let (guard, m) = self.traces.guard.unwrap_or(((0, 0), 0));
        [
            self.program.0 as u64,
            self.program.1 as u64,
            trace.0 as u64,
            trace.1 as u64,
            n.into(),
            label.0 as u64,
            self.verdict.into(),
            self.passes.into(),
            self.before() as u64,
            self.format.into(),
            label.1 as u64,
            guard.0 as u64,
            guard.1 as u64,
            m.into(),
        ]
    }
}

/// The 16 bits at a place, low byte first.
fn short(bytes: &[u8], at: usize) -> usize {
    usize::from(bytes[at]) | usize::from(bytes[at + 1]) << 8
}

/// The 32 bits at a place, low byte first.
fn long(bytes: &[u8], at: usize) -> u32 {
    (short(bytes, at) | short(bytes, at + 2) << 16) as u32
}

/// Reads the last record of an archive.
pub fn read(bytes: &[u8]) -> Result<Parts, u32> {
    read_formats(FORMATS, bytes)
}

/// Reads the last record of an archive as a release does that knows these formats.
pub fn read_formats(formats: &[Format], bytes: &[u8]) -> Result<Parts, u32> {
    let parts = layout(formats, bytes)?;
    program::check_for(parts.traces.contacts(), parts.program_in(bytes))?;
    Ok(parts)
}

/// The format of the trailer that the bytes end in, and the place where that begins.
fn trailer(formats: &[Format], bytes: &[u8]) -> Result<(Format, usize), u32> {
    if bytes.len() < SHORTEST_TRAILER {
        return Err(1);
    }
    let [.., number, mark] = *bytes else {
        return Err(1);
    };
    let known = formats.iter().find(|format| format.number == number);
    let format = known.filter(|_| mark == MARK).ok_or(2u32)?;
    let start = bytes.len().checked_sub(format.trailer()).ok_or(1u32)?;
    Ok((*format, start))
}

/// Reads all but the program itself.
fn layout(formats: &[Format], bytes: &[u8]) -> Result<Parts, u32> {
    let (format, trailer) = trailer(formats, bytes)?;
    let (first, second) = (short(bytes, trailer), short(bytes, trailer + 2));
    let counts = PerContact {
        ram: short(bytes, trailer + 4),
        guard: match format.contacts {
            Contacts::One => None,
            Contacts::Two => Some(short(bytes, trailer + 6)),
        },
    };
    let few = counts.each().all(|n| *n <= 4_095);
    let traces: usize = counts.each().map(|n| trace::bytes_for(*n)).sum();
    let lengths = few && second == traces + format.after_traces();
    if !lengths || first <= second || first > trailer {
        return Err(3);
    }
    let start = trailer - second;
    let ram = trace::bytes_for(counts.ram);
    let parts = Parts {
        format: format.number,
        program: (trailer - first, first - second),
        traces: PerContact {
            ram: ((start, ram), counts.ram as u16),
            guard: counts
                .guard
                .map(|m| ((start + ram, trace::bytes_for(m)), m as u16)),
        },
        label: (format.label > 0).then_some((trailer - format.after_traces(), format.label)),
        verdict: bytes[trailer - 5],
        passes: long(bytes, trailer - 4),
    };
    trace::lent(&parts.traces_in(bytes))?;
    if parts.verdict > 4 || parts.passes == 0 {
        return Err(4);
    }
    Ok(parts)
}

/// Checks the last record of an archive: whether it agrees, and what was worked out.
pub fn check(bytes: &[u8], table: &mut [u16]) -> Result<(bool, Evaluation), u32> {
    let parts = read(bytes)?;
    let functions = program::check(parts.program_in(bytes))?;
    let samples = trace::lent(&parts.traces_in(bytes))?;
    let evaluation = fill(&functions, &samples, table)?;
    let agrees = evaluation.verdict == parts.verdict && evaluation.passes == parts.passes;
    Ok((agrees, evaluation))
}

/// The length of what writing a record of a program on traces writes.
pub fn written_length(program: &[u8], traces: &Traces) -> usize {
    let format = format(traces, None);
    let bytes: usize = traces.each().map(|it| it.bytes.len()).sum();
    program.len() + bytes + format.after_traces() + format.trailer()
}

/// Writes a record: its length, and what was worked out.
pub fn write(
    program: &[u8],
    traces: &Traces,
    table: &mut [u16],
    out: &mut [u8],
) -> Result<(usize, Evaluation), u32> {
    let mut scratch = table.to_vec();
    let evaluation = super::evaluate(program, traces, &mut scratch)?;
    let length = written_length(program, traces);
    if out.len() < length {
        return Err(22);
    }
    let content = Content {
        program: program.to_vec(),
        traces: traces.clone(),
        label: None,
        verdict: evaluation.verdict,
        passes: evaluation.passes,
    };
    out[..length].copy_from_slice(&content.bytes());
    table.copy_from_slice(&scratch);
    Ok((length, evaluation))
}
