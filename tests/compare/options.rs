//! The options of the command line.

/// What a run shall do.
pub struct Options {
    pub seed: u64,
    /// The first round.
    pub from: u64,
    pub rounds: u64,
    /// Each buffer its own allocation with no words around it.
    pub exact: bool,
    /// Name each round and kind before it is run.
    pub loud: bool,
    /// The listing executable, if it is to be run.
    pub listing: Option<String>,
    /// The executable that runs scripts of cases, if it is to be run.
    pub cases: Option<String>,
    /// The kinds to run; none named means all.
    pub only: Vec<String>,
}

pub const USAGE: &str = "compare [--seed S] [--from R] [--rounds R] [--exact] [--loud]
        [--listing PATH] [--cases PATH] [--only KIND,KIND]";
const SEED: u64 = 20_260_101;
const ROUNDS: u64 = 6_000;

/// From so many rounds on, each refusal number must have been met.
pub const FULL: u64 = 1_000;

impl Options {
    /// Reads the options, or tells what is wrong with them.
    pub fn read(mut words: impl Iterator<Item = String>) -> Result<Self, String> {
        let mut options = Options {
            seed: SEED,
            from: 0,
            rounds: ROUNDS,
            exact: false,
            loud: false,
            listing: None,
            cases: None,
            only: Vec::new(),
        };
        while let Some(word) = words.next() {
            match word.as_str() {
                "--seed" => options.seed = number(words.next())?,
                "--from" => options.from = number(words.next())?,
                "--rounds" => options.rounds = number(words.next())?,
                "--exact" => options.exact = true,
                "--loud" => options.loud = true,
                "--listing" => options.listing = Some(words.next().ok_or("a path is missing")?),
                "--cases" => options.cases = Some(words.next().ok_or("a path is missing")?),
                "--only" => options.only = names(words.next().ok_or("a kind is missing")?),
                other => return Err(format!("unknown option {other}")),
            }
        }
        Ok(options)
    }

    /// Whether a kind of case is to be run.
    pub fn wants(&self, kind: &str) -> bool {
        self.only.is_empty() || self.only.iter().any(|name| name == kind)
    }
}

/// A number from a word of the command line.
fn number(word: Option<String>) -> Result<u64, String> {
    let word = word.ok_or("a number is missing")?;
    word.parse().map_err(|_| format!("{word} is no number"))
}

/// The names between commas.
fn names(word: String) -> Vec<String> {
    word.split(',').map(str::to_string).collect()
}
