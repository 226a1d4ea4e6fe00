//! The plain solver: what card 12 and docs/FORMAT.md say outright, and wrong solvers that the run tells.

use super::forms::{FIRST, NAMES};
use super::{Group, lines};
use crate::inspect;

/// Of each case the nodes' shapes, the statements, the words lent, and what is told of each entry in turn. Names 0 and
/// 1 are x and y.
type Case = (&'static str, &'static [&'static str], &'static str, u64, &'static str);

/// x = y; y = 1; x = "".
const CHAIN: &[&str] = &["03 0000", "03 0001", "03 0001", "00", "03 0000", "01", "00"];
const CHAINED: &str = "00 0000 0001 00 0002 0003 00 0004 0005";

/// x = what could not be read; y = 1.
const ERROR: &[&str] = &["03 0000", "0f", "03 0001", "00", "00"];

/// x = {x = 1, x = 1}; y = 1.
const TWICE: &[&str] = &["00", "00", "08 0000 0000 0000 0001", "03 0000", "03 0001", "00", "00"];

const CASES: [Case; 11] = [
    (
        "a binding replaces in an earlier one",
        CHAIN,
        CHAINED,
        16,
        "0e01\n?1 = ?0\n0e01\n?0 = Int\n?1 = Int\n0e00\n0e03\n",
    ),
    (
        "the third needs 16 words",
        CHAIN,
        CHAINED,
        15,
        "0e01\n?1 = ?0\n0e01\n?0 = Int\n?1 = Int\n0f12\n0e03\n",
    ),
    (
        "the second 14",
        CHAIN,
        CHAINED,
        13,
        "0e01\n?1 = ?0\n0f12\n0f12\n0e03\n",
    ),
    ("the first 8", CHAIN, CHAINED, 7, "0f12\n0f12\n0f12\n0e03\n"),
    (
        "x = what could not be read; y = x; y = 1",
        &["03 0000", "0f", "03 0001", "03 0000", "03 0001", "00", "00"],
        CHAINED,
        64,
        "0e02\n0e02\n0e02\n0e03\n",
    ),
    ("shut out comes before 18", ERROR, "00 0000 0001", 0, "0e02\n0e03\n"),
    (
        "an Error that no side reaches",
        ERROR,
        "00 0000 0001 00 0002 0003",
        64,
        "0e02\n0e01\n?1 = Int\n?0 = Error\n0e03\n",
    ),
    ("a field twice", TWICE, "00 0003 0002", 64, "0e02\n0e03\n"),
    (
        "a field twice that no side reaches",
        TWICE,
        "00 0003 0002 00 0004 0005",
        64,
        "0e02\n0e01\n?1 = Int\n?0 = record 2 .0 Int .0 Int\n0e03\n",
    ),
    (
        "x = {y = x}",
        &["03 0000", "03 0000", "08 0001 0001", "00"],
        "00 0000 0002",
        64,
        "0e00\n0e03\n",
    ),
    (
        "{x = \"\", y = x} < {y = 1, x = \"\"}",
        &["01", "03 0000", "08 0000 0000 0001 0001", "00", "01", "08 0001 0003 0000 0004", "00"],
        "04 0002 0005",
        64,
        "0e01\n?0 = Int\n0e03\n",
    ),
];

/// A solver with a mistake is told in these files at the latest.
const FILES: u64 = 1_000;

pub fn run(group: &mut Group) {
    for (case, nodes, statements, lent, expected) in CASES {
        let mut file = "01 02 0020\n02 78\n02 79\n".to_owned();
        for node in nodes {
            file.push_str(&format!("05 00000000 00000000 {node}\n"));
        }
        // The head is the last node, which nothing else names.
        let file = lines(&format!("{file}06 {:04x} {statements}", nodes.len() - 1));
        group.same(case, inspect::lines(&file, lent), expected.to_owned());
    }
    let twice = lines(&format!("{NAMES}{FIRST}{FIRST}"));
    let expected = "0e01\n?0 = Int\n0e01\n?0 = Int\n0e03\n";
    group.same("one count for all queries", inspect::lines(&twice, 64), expected.to_owned());
    group.same("a refusal", inspect::lines(b"", 64), "0f04\n".to_owned());

    group.same("the right solver", inspect::told(None, FILES), None);
    for wrong in inspect::wrongs() {
        let told = inspect::told(Some(wrong), FILES);
        group.same(&format!("{wrong:?}"), told.is_some(), true);
    }
}
