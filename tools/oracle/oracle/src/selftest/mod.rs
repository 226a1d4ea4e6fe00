//! `oracle selftest`: what document 01 and cards 1 to 3, 6 to 9 and 12 say outright, held against the judge.
//!
//! The expected answers and visits were worked out from these papers by hand and not by running; the
//! messages are what ty.rs says, read beside it.

mod cards;
mod examples;
mod forms;
mod inspect;
mod large;
mod messages;
mod reading;
mod refusals;
mod texts;
mod unused;

use judge::{Answer, Limits, Ran};

use crate::Done;
use crate::options::Options;

/// What runs the cases of a group.
type Cases = fn(&mut Group);

/// The groups by name.
const GROUPS: [(&str, Cases); 13] = [
    ("the examples of document 01", examples::whole),
    ("the table of refusals", refusals::run),
    ("the list of the computed table", examples::table),
    ("the examples of RFC 3629", texts::run),
    ("the rules of reading", reading::run),
    ("types too large", large::run),
    ("several queries in a file", forms::run),
    ("each message", messages::run),
    ("the two editions", cards::editions),
    ("the tally", cards::tally),
    ("the cabinet", cards::cabinet),
    ("names written once", unused::run),
    ("the plain solver", inspect::run),
];

/// One group of cases: counts, and the files that were asked about.
pub struct Group {
    name: &'static str,
    passed: usize,
    failed: usize,
    files: Vec<Vec<u8>>,
}

impl Group {
    fn run(name: &'static str, cases: Cases) -> Self {
        let mut group = Group {
            name,
            passed: 0,
            failed: 0,
            files: vec![],
        };
        cases(&mut group);
        group
    }

    /// What a file gives with the program's slices.
    pub fn answer(&mut self, file: &[u8]) -> Ran {
        self.files.push(file.to_vec());
        judge::answer(file, &Limits::default())
    }

    /// Counts one case, and tells of it where the two differ.
    pub fn same<T: PartialEq + std::fmt::Debug>(&mut self, case: &str, found: T, expected: T) {
        if found == expected {
            self.passed += 1;
        } else {
            self.failed += 1;
            println!("FAILED {}: {case}", self.name);
            println!("  expected {expected:?}");
            println!("  found    {found:?}");
        }
    }

    /// A file that is turned down.
    pub fn refused(&mut self, case: &str, file: &[u8], number: u8) {
        let found = self.answer(file).answer;
        self.same(case, found, Answer::Refused(number));
    }

    /// A file that passes the reading.
    pub fn read(&mut self, case: &str, file: &[u8]) {
        self.files.push(file.to_vec());
        let found = judge::read(file, &Limits::default()).err();
        self.same(case, found, None);
    }
}

/// The bytes of lines written one under another; blanks within a line are for the reader's eye.
pub fn lines(text: &str) -> Vec<u8> {
    let mut file = vec![];
    for line in text.lines() {
        let line: String = line.split_whitespace().collect();
        if !line.is_empty() {
            file.extend_from_slice(line.as_bytes());
            file.push(b'\n');
        }
    }
    file
}

/// The diagnostic line at a span, and the line of its message.
pub fn report(start: u32, end: u32, code: &str, message: &str) -> String {
    let digits =
        |text: &str| -> String { text.bytes().map(|byte| format!("{byte:02x}")).collect() };
    let (code, message) = (digits(code), digits(message));
    format!("08{start:08x}{end:08x}{code}\n0a{message}\n")
}

/// The line of a name written once, at its node's span.
pub fn unused(start: u32, end: u32) -> String {
    format!("0c{start:08x}{end:08x}\n")
}

/// The line of a query's visits, its last.
pub fn visits(made: u64) -> String {
    format!("09{made:08x}\n")
}

/// Every file that the self-test asks about with the program's slices.
pub fn files() -> Vec<Vec<u8>> {
    GROUPS
        .iter()
        .flat_map(|(name, cases)| Group::run(name, *cases).files)
        .collect()
}

pub fn run(given: &[String]) -> Done {
    Options::parse(given, &[], &[])?;
    let mut total = (0, 0);
    for (name, cases) in GROUPS {
        let group = Group::run(name, cases);
        println!("{name}: {} passed, {} failed", group.passed, group.failed);
        total = (total.0 + group.passed, total.1 + group.failed);
    }
    println!("selftest: {} passed, {} failed", total.0, total.1);
    Ok(total.1 == 0)
}
