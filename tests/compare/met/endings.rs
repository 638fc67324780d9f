//! The ways in which following ends.

use super::super::oracle::follow::Followed;

/// Where an outcome comes from.
#[derive(Clone, Copy, PartialEq, Eq)]
pub enum Source {
    Body,
    /// An argument of a call, which is not counted.
    Argument,
}

/// How many calls were made before an outcome.
#[derive(Clone, Copy, PartialEq, Eq)]
pub enum Calls {
    None,
    Some,
    /// One fewer than there are configurations.
    Most,
}

/// A way in which following ends.
#[derive(Clone, Copy, PartialEq, Eq)]
pub enum Ending {
    /// Not at all. The bodies of so many functions were taken; the greatest number stands for more as well.
    Forever(u32),
    /// By the outcome that a verdict stands for.
    Outcome(u8, Source, Calls),
}

/// The number of functions that stands for more.
const MORE: u32 = 3;

impl Ending {
    pub fn all() -> Vec<Ending> {
        let mut all: Vec<Ending> = (1..=MORE).map(Ending::Forever).collect();
        for calls in [Calls::None, Calls::Some, Calls::Most] {
            let bodies = (1..=4).map(|verdict| Ending::Outcome(verdict, Source::Body, calls));
            all.extend(bodies);
            let errors = (3..=4).map(|verdict| Ending::Outcome(verdict, Source::Argument, calls));
            all.extend(errors);
        }
        all
    }

    pub fn of(followed: &Followed) -> Self {
        let source = match followed.in_argument {
            true => Source::Argument,
            false => Source::Body,
        };
        match (followed.verdict, followed.calls) {
            (0, _) => Ending::Forever(followed.taken.count_ones().min(MORE)),
            (verdict, 0) => Ending::Outcome(verdict, source, Calls::None),
            (verdict, calls) if calls + 1 == followed.configurations => {
                Ending::Outcome(verdict, source, Calls::Most)
            }
            (verdict, _) => Ending::Outcome(verdict, source, Calls::Some),
        }
    }

    pub fn name(self) -> String {
        let (verdict, source, calls) = match self {
            Ending::Forever(MORE) => return "forever by three functions or more".to_string(),
            Ending::Forever(functions) => return format!("forever by functions: {functions}"),
            Ending::Outcome(verdict, source, calls) => (verdict, source, calls),
        };
        let verdict = ["", "no", "yes", "head", "tail"][usize::from(verdict)];
        let source = match source {
            Source::Body => "of a body",
            Source::Argument => "of an argument",
        };
        let calls = match calls {
            Calls::None => "after no call",
            Calls::Some => "after some calls",
            Calls::Most => "after all calls but one",
        };
        format!("{verdict} {source} {calls}")
    }
}
