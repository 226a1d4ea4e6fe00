//! A second reader and a second checker, written from document 01 beside ty.rs.
//!
//! It shares no code with the judge: types are numbered cells, frames are read
//! through tables, and the visits are counted here. Where both agree on a file, two
//! readings of the papers agree. Each entry of [`MUTATIONS`] switches one mistake on,
//! so that the files can be asked whether they would notice it.

mod checker;
mod convert;
mod desks;
mod message;
mod mutation;
mod reader;
mod tariff;
mod text;
mod types;
mod unify;
mod writer;

use checker::State;
pub use convert::{CONVERSIONS, convert};
pub use desks::{DESKS, Day, Desk, Group};
pub use mutation::MUTATIONS;
use mutation::{Switch, Wrong};
use reader::{Tree, WIDE};
pub use tariff::{TARIFFS, Tally, tally};

/// What a caller lends: words of the work slice, bytes of the answer slice, visits.
#[derive(Clone, Copy, Debug, PartialEq, Eq)]
pub struct Limits {
    pub words: usize,
    pub bytes: usize,
    pub visits: u64,
}

impl Default for Limits {
    fn default() -> Self {
        Limits {
            words: WORDS,
            bytes: 65_536,
            visits: 1_048_576,
        }
    }
}

const WORDS: usize = 16_384;
const FILE_BYTES: usize = 65_536;

/// The answer's lines, or the refusal's number.
#[derive(Clone, Debug, PartialEq, Eq)]
pub enum Answer {
    Lines(Vec<u8>),
    Refused(u8),
}

/// The number that a wrong checker gets when it would not come to an end. No right
/// one gives it.
pub const ENDLESS: u8 = 255;

/// An answer, and the visits of each query that ran (none where reading already failed).
#[derive(Clone, Debug, PartialEq, Eq)]
pub struct Ran {
    pub answer: Answer,
    pub visits: Vec<u64>,
}

impl Ran {
    fn refused(number: u8, visits: Vec<u64>) -> Ran {
        Ran {
            answer: Answer::Refused(number),
            visits,
        }
    }
}

/// Reads, checks and writes one file; `mutation` is an index into [`MUTATIONS`].
pub fn answer(file: &[u8], limits: &Limits, mutation: Option<usize>) -> Ran {
    let wrong = Switch::new(mutation);
    if let Some(number) = sizes(file, limits, wrong) {
        return Ran::refused(number, Vec::new());
    }
    let (tree, refused) = reader::read(file, WIDE, wrong);
    if let Some(number) = refused {
        if wrong.on(Wrong::RunWhileRead)
            && let Err(ran) = run(&tree, limits, wrong)
        {
            return ran;
        }
        return Ran::refused(number, Vec::new());
    }
    let states = match run(&tree, limits, wrong) {
        Ok(states) => states,
        Err(ran) => return ran,
    };
    written(&states, limits, wrong)
}

/// The lines of queries that all ran, or 12.
fn written(states: &[State], limits: &Limits, wrong: Switch) -> Ran {
    let visits = states.iter().map(|state| state.visits).collect();
    match writer::write(states, limits.bytes, wrong) {
        Ok(lines) => Ran {
            answer: Answer::Lines(lines),
            visits,
        },
        Err(number) => Ran::refused(number, visits),
    }
}

/// Runs all queries; the first that does not end decides.
fn run<'a>(tree: &'a Tree, limits: &Limits, wrong: Switch) -> Result<Vec<State<'a>>, Ran> {
    let mut states: Vec<State> = Vec::new();
    for rows in &tree.queries {
        let (state, stopped) = checker::run(tree, rows, states.last(), limits, wrong);
        match stopped {
            Some(11) if wrong.on(Wrong::OneRunsOut) && !states.is_empty() => continue,
            Some(number) => {
                let mut visits: Vec<u64> = states.iter().map(|state| state.visits).collect();
                visits.push(state.visits);
                return Err(Ran::refused(number, visits));
            }
            None => states.push(state),
        }
        if wrong.on(Wrong::TwelveBeforeEleven)
            && let Err(number) = writer::write(&states, limits.bytes, wrong)
        {
            return Err(Ran::refused(number, Vec::new()));
        }
    }
    Ok(states)
}

/// Refusals 1 and 2, which come before any line is looked at.
fn sizes(file: &[u8], limits: &Limits, wrong: Switch) -> Option<u8> {
    let words = match () {
        _ if wrong.on(Wrong::WordsOneLess) => WORDS - 1,
        _ if wrong.on(Wrong::WordsOneMore) => WORDS + 1,
        _ => WORDS,
    };
    let bytes = match () {
        _ if wrong.on(Wrong::FileOneMore) => FILE_BYTES + 1,
        _ if wrong.on(Wrong::FileOneLess) => FILE_BYTES - 1,
        _ => FILE_BYTES,
    };
    let small = (limits.words < words).then_some(1);
    let large = (file.len() > bytes).then_some(2);
    if wrong.on(Wrong::TwoBeforeOne) {
        large.or(small)
    } else {
        small.or(large)
    }
}
