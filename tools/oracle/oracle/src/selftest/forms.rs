//! Several queries in a file: what card 3 says outright.

use judge::{Answer, Limits, Node, Predicate, Query, Shape, Tree};

use super::examples::M;
use super::large::{doubled_key, key_of};
use super::refusals::doubling;
use super::{Group, lines, report, visits};

/// A node that is an integer, and the query of it alone.
const ONE: &str = "05 00000000 00000000 00\n06 0000\n";

/// The schema of `two`: the names x and f.
pub const NAMES: &str = "01 02 0020\n02 78\n02 66\n";

/// x = 1, head x.
pub const FIRST: &str = "
    05 00000000 00000001 03 0000
    05 00000004 00000005 00
    05 00000008 00000009 03 0000
    06 0002 00 0000 0001";

/// x = {f = x}, head x: the same numbers of nodes and unknowns stand for something else.
const SECOND: &str = "
    05 00000000 00000001 03 0000
    05 00000009 0000000a 03 0000
    05 00000004 0000000b 08 0001 0001
    05 0000000f 00000010 03 0000
    06 0003 00 0000 0002";

const FIRST_PRINTS: &str = "
    07 0000 00
    07 0001 00
    07 0002 00";

const SECOND_PRINTS: &str = "
    07 0000 060000
    07 0001 060000
    07 0002 04 0001 0001 060000
    07 0003 060000";

pub fn run(group: &mut Group) {
    two(group);
    counts(group);
    places(group);
    references(group);
    limits(group);
}

/// Two queries in both orders, one alone, and one twice.
fn two(group: &mut Group) {
    let infinite = report(
        4,
        11,
        "reject/infinite-type",
        "this pattern would have to contain itself",
    );
    let first = format!("{FIRST_PRINTS}\n{}", visits(2));
    let second = format!("{SECOND_PRINTS}\n{infinite}{}", visits(3));
    let accepted = |text: &str| Answer::Lines(lines(text));
    for (case, file, prints, visits) in [
        (
            "a query alone has no 0b",
            format!("{NAMES}{FIRST}"),
            first.clone(),
            vec![2],
        ),
        (
            "two queries",
            format!("{NAMES}{FIRST}\n{SECOND}"),
            format!("0b0000\n{first}0b0001\n{second}"),
            vec![2, 3],
        ),
        (
            "the same in the other order",
            format!("{NAMES}{SECOND}\n{FIRST}"),
            format!("0b0000\n{second}\n0b0001\n{first}"),
            vec![3, 2],
        ),
        (
            "one query twice",
            format!("{NAMES}{SECOND}\n{SECOND}"),
            format!("0b0000\n{second}\n0b0001\n{second}"),
            vec![3, 3],
        ),
    ] {
        let ran = group.answer(&lines(&file));
        group.same(case, ran.answer, accepted(&prints));
        group.same(case, ran.visits, visits);
    }
}

/// The limits and so many queries.
fn form(queries: usize) -> String {
    format!("01 02 0020\n{}", ONE.repeat(queries))
}

/// 64 queries pass, and the 65th is turned down by its kind alone.
fn counts(group: &mut Group) {
    for queries in [2, 30, 63, 64] {
        let ran = group.answer(&lines(&form(queries)));
        let prints: String = (0..queries)
            .map(|query| format!("0b{query:04x}\n07000000\n0900000000\n"))
            .collect();
        let case = format!("{queries} queries");
        group.same(&case, ran.answer, Answer::Lines(prints.into_bytes()));
        group.same(&case, ran.visits, vec![0; queries]);
    }
    let full = form(64);
    let node = "05 00000000 00000000 00\n";
    for (case, more, number) in [
        ("65 queries", ONE.to_owned(), 13),
        ("a 65th that is too short", format!("{node}06"), 13),
        (
            "a 65th with an unknown statement",
            format!("{node}06 0000 05"),
            13,
        ),
        ("a 65th that names no node", format!("{node}06 0001"), 13),
        ("a 65th directly after the 64th", "06 0000".to_owned(), 4),
        ("an odd 65th", format!("{node}06000"), 3),
        ("a node after the 64th", node.to_owned(), 4),
        ("a broken node after the 64th", "05".to_owned(), 6),
        ("a name after the 64th", "02".to_owned(), 4),
        ("13, then 3", format!("{ONE}0"), 13),
    ] {
        group.refused(case, &lines(&format!("{full}{more}")), number);
    }
}

/// A line 05, no other, may follow 06, and 06 is last.
fn places(group: &mut Group) {
    let m = M.to_owned() + "\n";
    for (case, more, number) in [
        ("01 after 06", "01 02 0020", 4),
        ("02 after 06", "02 78", 4),
        ("03 after 06", "03 00", 4),
        ("04 after 06", "04 0000 0000 00", 4),
        ("06 after 06", "06 0000", 4),
        ("07 after 06", "07", 4),
        ("05 last", "05 00000000 00000000 00", 4),
        (
            "two 05 last",
            "05 00000000 00000000 00\n05 00000000 00000000 00",
            4,
        ),
        ("05, then 02", "05 00000000 00000000 00\n02 78", 4),
        ("a bad last query", "05 00000000 00000000 00\n06", 6),
        (
            "a bad node of the last query",
            "05 00000000 00000000 11\n06 0000",
            6,
        ),
        (
            "an LF after the last",
            "05 00000000 00000000 00\n06 0000\n0",
            3,
        ),
    ] {
        group.refused(case, &lines(&format!("{m}{more}")), number);
    }
}

/// A node reference reaches only the query's own nodes, and each query may name its own.
fn references(group: &mut Group) {
    let node = "05 00000000 00000000 ";
    let two = format!("01 02 0020\n02 66\n{node}00\n{node}00\n06 0000\n");
    for (case, more) in [
        ("a head of the query before", format!("{node}00\n06 0001")),
        ("a statement of it", format!("{node}00\n06 0000 01 0001")),
        ("a record over it", format!("{node}08 0000 0001\n06 0000")),
        ("a first node over it", format!("{node}0a 0000\n06 0000")),
        ("a subquery over it", format!("{node}0c 0001\n06 0000")),
        ("a node named again", format!("{node}00\n06 0000 01 0000")),
    ] {
        group.refused(case, &lines(&format!("{two}{more}")), 9);
    }
    group.read(
        "a number that the query before has named",
        &lines(&format!("{two}{node}00\n06 0000")),
    );
    // 512 nodes in each query, and one more in the second.
    let many = |count: usize| format!("{node}00\n").repeat(count) + "06 0000\n";
    group.read(
        "512 nodes in each of two queries",
        &lines(&format!("01 02 0020\n{}{}", many(512), many(512))),
    );
    group.refused(
        "513 nodes in the second",
        &lines(&format!("01 02 0020\n{}{}", many(512), many(513))),
        5,
    );
}

/// Visits start at 0 for each query; 11 of any query comes after all lines are read and before 12.
fn limits(group: &mut Group) {
    let form = |counts: &[u16]| {
        let mut file = doubling(24);
        let trees = counts.iter().flat_map(|count| {
            let mut trees = doubling(*count).trees;
            let names = 2 + *count;
            // The names of the longest chain serve all.
            for node in &mut trees[0].nodes {
                if let Shape::Record(parts) = &mut node.shape {
                    parts.iter_mut().for_each(|part| part.0 += 26 - names);
                }
            }
            trees
        });
        file.trees = trees.collect();
        judge::encode(&file)
    };
    // Statement k takes 2^(k + 1) visits.
    let made = |count: u32| (1 << (count + 2)) - 4;
    let with = |file: &[u8], bytes, visits| {
        let limits = Limits {
            bytes,
            visits,
            ..Limits::default()
        };
        judge::answer(file, &limits)
    };
    let file = form(&[5, 3, 5]);
    let ran = group.answer(&file);
    group.same(
        "the visits of each",
        ran.visits,
        vec![made(5), made(3), made(5)],
    );
    let exact = with(&file, 65_536, made(5));
    let accepted = matches!(exact.answer, Answer::Lines(_));
    group.same("each within its visits", accepted, true);
    let late = form(&[3, 5]);
    let ran = with(&late, 65_536, made(5) - 1);
    group.same("11 in the second", ran.answer, Answer::Refused(11));
    group.same("its visits", ran.visits, vec![made(3), made(5) - 1]);
    for bytes in [0, 7, 8, 100] {
        let ran = with(&late, bytes, made(5) - 1);
        group.same("a slice full before it", ran.answer, Answer::Refused(11));
    }
    group.refused("11 in a late query", &form(&[2, 2, 24]), 11);
    let broken = [&form(&[24, 2])[..], b"05\n"].concat();
    group.refused("11 in the first, and a bad last line", &broken, 6);

    small(group);

    // 12 goes by all lines, the 0b and the 09 lines included.
    let m = lines(&format!("{M}\n{ONE}"));
    for (bytes, fits) in [
        (54, true),
        (53, false),
        (43, false),
        (27, false),
        (0, false),
    ] {
        let found = matches!(with(&m, bytes, 0).answer, Answer::Lines(_));
        group.same("two queries in a slice", found, fits);
    }
}

/// Small forms of a query that runs out of visits, one whose answer is too long, and one that is neither.
fn small(group: &mut Group) {
    let mut file = doubled_key(20);
    file.predicates.push(Predicate {
        name: 0,
        key: 12,
        value: None,
    });
    let node = |shape| Node {
        start: 0,
        end: 0,
        shape,
    };
    let tree = |shapes: &[Shape]| Tree {
        nodes: shapes.iter().cloned().map(node).collect(),
        query: Query {
            head: shapes.len() as u16 - 1,
            body: vec![],
        },
    };
    let out = tree(&[Shape::Var(0), Shape::Fact(0, 0)]);
    let long = tree(&[Shape::Wildcard, Shape::Fact(1, 0)]);
    let int = tree(&[Shape::Int]);
    for (case, trees, number) in [
        ("out of visits, then an integer", [&out, &int], 11),
        ("an integer, then out of visits", [&int, &out], 11),
        ("a long answer, then an integer", [&long, &int], 12),
        ("an integer, then a long answer", [&int, &long], 12),
        ("a long answer, then out of visits", [&long, &out], 11),
        ("out of visits, then a long answer", [&out, &long], 11),
    ] {
        file.trees = trees.map(Tree::clone).to_vec();
        let bytes = judge::encode(&file);
        group.refused(case, &bytes, number);
        let broken = [&bytes[..], b"05\n"].concat();
        group.refused("the same and a bad line", &broken, 6);
    }

    // Three times half of the visits allowed: each query has all of them.
    let mut file = doubled_key(18);
    file.trees = vec![out; 3];
    let ran = group.answer(&judge::encode(&file));
    group.same("half of the visits each", ran.visits, vec![1 << 19; 3]);
    group.same("not 11", ran.answer, Answer::Refused(12));
    // Twice 32,789 bytes; and 65,513, 20 and two lines 0b.
    let long = tree(&[Shape::Wildcard, Shape::Fact(0, 0)]);
    let mut file = doubled_key(11);
    file.trees = vec![long.clone(); 2];
    group.refused("too long together", &judge::encode(&file), 12);
    let mut file = key_of(&[11, 10, 9, 8, 7, 6, 6, 0]);
    file.trees = vec![long, int];
    group.refused("too long with the lines 0b", &judge::encode(&file), 12);
}
