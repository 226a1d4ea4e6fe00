//! The judge: a file's answer by the unchanged Rust.
//!
//! `answer` reads a file (the first reader), applies the refusals in document 01's order and calls
//! the unchanged `check` of ty.rs. The Rust counts no visits, so they come from a copy of ty.rs
//! that the build gives counting lines and checks to be ty.rs without them.

mod cabinet;
pub mod calls;
mod convert;
mod encode;
pub mod entries;
mod file;
mod lamp;
pub mod levenshtein;
pub mod lower;
mod marks;
mod measure;
mod read;
mod said;
mod stack;
mod tariff;
mod timing;
mod tree;
mod visits;
mod write;

include!(concat!(env!("OUT_DIR"), "/modules.rs"));

pub use cabinet::{Desk, GROUP_WORDS, Group, MOST_VISITS};
pub use convert::{convert, references};
use diag::{Code, Diagnostics};
pub use encode::{encode, encode_in};
pub use lamp::{Lamp, lamp};
pub use file::{File, Node, Predicate, Query, Shape, Stmt, Tree, Type};
use measure::Measure;
pub use read::{Edition, read, read_in};
pub use said::TEXTS;
pub use stack::{answer, answer_at, on_large_stack};
pub use tariff::Tally;
pub use timing::{Parts, timed};
use visits::Stop;
use write::Lines;

/// What a run is lent, and how many visits it may make.
#[derive(Debug, Clone, Copy, PartialEq)]
pub struct Limits {
    /// Length of the work slice in words.
    pub words: usize,
    /// Length of the answer slice in bytes.
    pub bytes: usize,
    /// The most visits that a query may make.
    pub visits: u64,
}

impl Default for Limits {
    /// What the program lends and document 01 allows.
    fn default() -> Self {
        Limits {
            words: 16_384,
            bytes: 65_536,
            visits: 1_048_576,
        }
    }
}

#[derive(Debug, Clone, PartialEq)]
pub enum Answer {
    /// The answer's lines, each closed by LF.
    Lines(Vec<u8>),
    /// The refusal's number, 1 to 17.
    Refused(u8),
    /// The Rust can't hold what the file describes; the words say why.
    LeftOut(&'static str),
}

/// What a run gave.
#[derive(Debug, Clone, PartialEq)]
pub struct Ran {
    pub answer: Answer,
    /// Visits made by each query that ran: none after refusals 1 to 10, 13 and 17; after 11 and 16 the last
    /// ran out of them and the others did not run.
    pub visits: Vec<u64>,
    /// The code of each diagnostic, in order; none where not all queries ran.
    pub codes: Vec<&'static str>,
    /// Of each diagnostic, which of `TEXTS` its message is.
    pub texts: Vec<&'static str>,
}

/// The Rust would write out types too large to hold.
pub const TOO_LARGE: &str = "types too large";

/// The Rust would build messages too long to hold.
pub const TOO_LONG: &str = "messages too long";

/// Answers measured longer than this many characters are refused by the measured length alone: the
/// Rust would need some twenty bytes for each.
const MOST_WRITTEN: u64 = 1 << 23;

/// Who is charged for the visits of a file's queries.
trait Account {
    /// The most visits of the next query.
    fn ceiling(&self) -> u64;
    /// The visits that it made.
    fn charge(&mut self, visits: u64);
}

/// Nobody: each query may make so many.
struct Free(u64);

impl Account for Free {
    fn ceiling(&self) -> u64 {
        self.0
    }

    fn charge(&mut self, _: u64) {}
}

/// A desk of a group that obeys the rules.
struct AtDesk<'a> {
    group: &'a mut Group,
    desk: usize,
}

impl Account for AtDesk<'_> {
    fn ceiling(&self) -> u64 {
        self.group.ceiling(self.desk).expect("the rules are kept")
    }

    fn charge(&mut self, visits: u64) {
        self.group.charge(self.desk, visits);
    }
}

/// The answer to a file, on this thread.
fn answer_here(file: &[u8], limits: &Limits) -> Ran {
    charged(file, limits, Free(limits.visits), 11)
}

/// The answer to a file at a desk, and the group after it (card 8). The limits' own visits are not looked at.
fn answer_at_here(file: &[u8], limits: &Limits, group: &Group, desk: usize) -> (Ran, Group) {
    let mut after = group.clone();
    let Ok(_) = group.ceiling(desk) else {
        let refused = Ran {
            answer: Answer::Refused(17),
            visits: vec![],
            codes: vec![],
            texts: vec![],
        };
        return (refused, after);
    };
    let account = AtDesk {
        group: &mut after,
        desk,
    };
    (charged(file, limits, account, 16), after)
}

/// The answer to a file whose queries are charged in turn; `low` is told where a ceiling under 1,048,576 is
/// passed.
fn charged(file: &[u8], limits: &Limits, mut account: impl Account, low: u8) -> Ran {
    let stopped = |answer, visits| Ran {
        answer,
        visits,
        codes: vec![],
        texts: vec![],
    };
    let file = match read(file, limits) {
        Ok(file) => file,
        Err(number) => return stopped(Answer::Refused(number), vec![]),
    };
    let base = tree::base(&file);
    levenshtein::set(file.max_distance, file.max_term);

    visits::begin();
    // All queries run before anything is written: 11 of any one comes before 12.
    let mut visits = vec![];
    let mut length = 0_u64;
    let mut counted = vec![];
    for tree in &file.trees {
        let tree = tree::build(tree, &base);
        let mut diagnostics = Diagnostics::new();
        let ceiling = account.ceiling();
        marks::begin();
        let (left, made) = visits::counted(ceiling, || {
            counted::probe::walk(&tree.ast, &base.schema, &base.interner, &mut diagnostics)
        });
        visits.push(made);
        account.charge(made);
        let left = match left {
            Ok(left) => left,
            Err(Stop::Visits) => {
                let number = if ceiling < MOST_VISITS { low } else { 11 };
                return stopped(Answer::Refused(number), visits);
            }
            Err(Stop::Size) => return stopped(Answer::LeftOut(TOO_LARGE), visits),
            Err(Stop::Text) => return stopped(Answer::LeftOut(TOO_LONG), visits),
        };
        if file.trees.len() > 1 {
            length = length.saturating_add(NUMBER_LINE);
        }
        length = length.saturating_add(self::length(&left, &diagnostics));
        let unused = marks::left();
        length = length.saturating_add(UNUSED_LINE * unused.len() as u64);
        length = length.saturating_add(VISITS_LINE);
        counted.push((tree, diagnostics, unused));
    }
    let codes: Vec<&str> = counted.iter().flat_map(|(_, found, _)| codes(found)).collect();
    let messages = counted.iter().flat_map(|(_, found, _)| found.iter());
    let texts = codes
        .iter()
        .zip(messages)
        .map(|(code, diagnostic)| said::text(code, &diagnostic.message))
        .collect();
    if length > MOST_WRITTEN.max(limits.bytes as u64) {
        return Ran {
            answer: Answer::Refused(12),
            visits,
            codes,
            texts,
        };
    }

    let mut lines = Lines::new(limits.bytes);
    for (number, (tree, counted, unused)) in counted.iter().enumerate() {
        let mut diagnostics = Diagnostics::new();
        let typed = ty::check(&tree.ast, &base.schema, &base.interner, &mut diagnostics);
        if file.trees.len() > 1 {
            put_number(&mut lines, number);
        }
        put_types(&mut lines, &typed, tree, &base);
        put_diagnostics(&mut lines, &diagnostics);
        put_unused(&mut lines, unused, tree, &file.trees[number]);
        put_visits(&mut lines, visits[number]);
        // The counted copy is ty.rs: shown on every file.
        assert!(
            diagnostics.iter().eq(counted.iter()),
            "the counted copy reports otherwise than ty.rs"
        );
    }
    // The measure is what the Rust writes.
    assert_eq!(
        lines.length(),
        length,
        "the answer is not as long as measured"
    );
    let answer = match lines.into_bytes() {
        Some(bytes) => Answer::Lines(bytes),
        None => Answer::Refused(12),
    };
    Ran {
        answer,
        visits,
        codes,
        texts,
    }
}

/// The characters of an 0b line.
const NUMBER_LINE: u64 = 7;

/// The 0b line before a query's lines, where a file has more than one.
fn put_number(lines: &mut Lines, query: usize) {
    lines.put(&[0x0b]);
    lines.put(&write::two(query));
    lines.end_line();
}

/// The characters of an 0c line.
const UNUSED_LINE: u64 = 19;

/// The 0c lines (card 9). The Rust has no such: these are the copy's with marks.
fn put_unused(lines: &mut Lines, unused: &[syntax::NodeId], tree: &tree::Tree, of: &Tree) {
    for maker in unused {
        let number = tree.nodes.iter().position(|node| node == maker);
        let node = &of.nodes[number.expect("a node of this query")];
        lines.put(&[0x0c]);
        lines.put(&node.start.to_be_bytes());
        lines.put(&node.end.to_be_bytes());
        lines.end_line();
    }
}

/// The characters of an 09 line.
const VISITS_LINE: u64 = 11;

/// The 09 line after a query's others (card 7). The Rust counts no visits: these are the counted copy's.
fn put_visits(lines: &mut Lines, visits: u64) {
    let visits = u32::try_from(visits).expect("a query has at most 1,048,576 visits");
    lines.put(&[0x09]);
    lines.put(&visits.to_be_bytes());
    lines.end_line();
}

/// The 07 lines.
fn put_types(lines: &mut Lines, typed: &ty::Typed, tree: &tree::Tree, base: &tree::Base) {
    for (number, node) in tree.nodes.iter().enumerate() {
        lines.put(&[0x07]);
        lines.put(&write::two(number));
        match typed.ty(*node) {
            Some(ty) => lines.put_type(ty, &base.numbers),
            None => lines.put(&[0xff]),
        }
        lines.end_line();
    }
}

/// The 08 lines, each with its 0a line.
fn put_diagnostics(lines: &mut Lines, diagnostics: &Diagnostics) {
    for diagnostic in diagnostics {
        let span = &diagnostic.labels[0].range;
        lines.put(&[0x08]);
        for end in [span.start, span.end] {
            let end = u32::try_from(end).expect("a span of two 32-bit numbers");
            lines.put(&end.to_be_bytes());
        }
        lines.put(diagnostic.code.as_deref().expect("a code").as_bytes());
        lines.end_line();
        lines.put(&[0x0a]);
        lines.put(diagnostic.message.as_bytes());
        lines.end_line();
    }
}

fn codes(diagnostics: &Diagnostics) -> Vec<&'static str> {
    diagnostics
        .codes()
        .map(|code| Code::from_rendered(code).expect("a code").as_str())
        .collect()
}

/// The length of a query's lines, measured on what the counted copy left.
fn length(left: &counted::probe::Left, diagnostics: &Diagnostics) -> u64 {
    let mut measure = Measure::new(&left.subst);
    let mut length = 0_u64;
    for ty in &left.tys {
        let ty = ty.as_ref().map_or(2, |ty| measure.length(ty));
        length = length.saturating_add(7).saturating_add(ty);
    }
    for (code, diagnostic) in codes(diagnostics).iter().zip(diagnostics) {
        length = length.saturating_add(19 + 2 * code.len() as u64);
        length = length.saturating_add(3 + 2 * diagnostic.message.len() as u64);
    }
    length
}
