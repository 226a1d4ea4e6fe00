//! Each row of document 01's table of refusals, with its example.

use judge::{Answer, File, Limits, Node, Query, Shape, Stmt, Tree};

use super::examples::{M, M_PRINTS};
use super::{Group, lines};

pub fn run(group: &mut Group) {
    let m = lines(M);
    let with = |words, bytes| {
        let limits = Limits {
            words,
            bytes,
            ..Limits::default()
        };
        judge::answer(&m, &limits).answer
    };

    group.same("1: M with 16,383", with(16_383, 65_536), Answer::Refused(1));
    group.same("1: M with none", with(0, 65_536), Answer::Refused(1));
    let accepted = Answer::Lines(lines(M_PRINTS));
    group.same("1: M with 16,384", with(16_384, 65_536), accepted.clone());
    group.same("1: M with 16,385", with(16_385, 65_536), accepted.clone());

    group.refused("2: 65,537 zeros", &[0; 65_537], 2);
    group.refused("2: 65,536 zeros", &[0; 65_536], 3);
    let short = Limits {
        words: 16_383,
        ..Limits::default()
    };
    let both = judge::answer(&[0; 65_537], &short).answer;
    group.same("1 before 2", both, Answer::Refused(1));

    group.refused("3: 0102002", b"0102002", 3);
    group.refused("3: 0102002 and LF", b"0102002\n", 3);
    group.refused("3: no LF", b"01020020", 3);
    group.refused("3: one LF", b"\n", 3);
    group.refused("4: empty file", b"", 4);
    group.refused("4: file ends without 06", &lines("01020020"), 4);

    group.refused("5: 257 names", &names(257), 5);
    group.refused("5: 256 names and no 06", &names(256), 4);

    group.refused("6: 0102", &lines("0102"), 6);
    group.refused("7: 02ff", &lines("01020020\n02ff"), 7);
    group.refused("8: 0278 twice", &lines("01020020\n0278\n0278"), 8);
    group.refused(
        "9: M ending 060001",
        &lines("01020020\n05000000000000000300\n060001"),
        9,
    );
    let repeated = "01020020\n0278\n0300\n03040000000000000000";
    group.refused("10: a repeated field", &lines(repeated), 10);

    let ran = group.answer(&judge::encode(&doubling(24)));
    group.same("11: x0 to x24", ran.answer, Answer::Refused(11));
    group.same("11: its visits", ran.visits, vec![1_048_576]);
    visits_exact(group);

    // The node's line takes 9, that of the visits 11.
    group.same("12: M with 19 bytes", with(16_384, 19), Answer::Refused(12));
    group.same("12: M with 9 bytes", with(16_384, 9), Answer::Refused(12));
    group.same("12: M with none", with(16_384, 0), Answer::Refused(12));
    group.same("12: M with 20 bytes", with(16_384, 20), accepted);
    let ran = group.answer(&judge::encode(&shrinking(80)));
    group.same(
        "12: types too large to write",
        ran.answer,
        Answer::Refused(12),
    );
    group.same("12: its visits", ran.visits, vec![80 * 4]);
}

/// A run stops instead of making the visit after the last one allowed.
fn visits_exact(group: &mut Group) {
    let file = judge::encode(&doubling(5));
    // Statement k: unify, and occurs over a full binary tree of 2^(k + 1) - 1 nodes.
    let visits: u64 = (1..=5).map(|k| 1 + (1 << (k + 1)) - 1).sum();
    let with = |visits| {
        let limits = Limits {
            visits,
            ..Limits::default()
        };
        judge::answer(&file, &limits)
    };
    let exact = with(visits);
    group.same("11: visits counted", exact.visits, vec![visits]);
    group.same(
        "11: exactly as many as allowed",
        matches!(exact.answer, Answer::Lines(_)),
        true,
    );
    let over = with(visits - 1);
    group.same("11: one more", over.answer, Answer::Refused(11));
    group.same("11: ended before it", over.visits, vec![visits - 1]);
}

/// The limits and so many different names.
fn names(count: usize) -> Vec<u8> {
    let mut text = "01020020\n".to_owned();
    for name in 0..count {
        text.push_str(&format!("02{:08x}\n", 0x30303030 + digits(name)));
    }
    text.into_bytes()
}

/// Four decimal digits, one in each byte.
fn digits(number: usize) -> u32 {
    let digit = |power: usize| (number / power % 10) as u32;
    digit(1000) << 24 | digit(100) << 16 | digit(10) << 8 | digit(1)
}

/// x1 = {a = x0, b = x0} and so on, head x0. Each later statement walks twice as far.
pub fn doubling(count: u16) -> File {
    chain((1..=count).map(|k| (k, k - 1)), count)
}

/// x0 = {a = x1, b = x1} and so on, head x0: cheap to check, and twice as large with each.
pub fn shrinking(count: u16) -> File {
    chain((0..count).map(|k| (k, k + 1)), count)
}

/// Statements left = {a = right, b = right} over the unknowns x0 to xn.
fn chain(pairs: impl Iterator<Item = (u16, u16)>, last: u16) -> File {
    let mut names: Vec<Vec<u8>> = (0..=last).map(|x| format!("x{x}").into_bytes()).collect();
    names.extend([b"a".to_vec(), b"b".to_vec()]);
    let (a, b) = (last + 1, last + 2);

    let mut nodes = vec![];
    let mut push = |shape| {
        nodes.push(Node {
            start: 0,
            end: 0,
            shape,
        });
        nodes.len() as u16 - 1
    };
    let mut body = vec![];
    for (left, right) in pairs {
        let first = push(Shape::Var(right));
        let second = push(Shape::Var(right));
        let record = push(Shape::Record(vec![(a, first), (b, second)]));
        let variable = push(Shape::Var(left));
        body.push(Stmt::Bind(variable, record));
    }
    let head = push(Shape::Var(0));
    File {
        max_distance: 2,
        max_term: 32,
        names,
        types: vec![],
        predicates: vec![],
        trees: vec![Tree {
            nodes,
            query: Query { head, body },
        }],
    }
}
