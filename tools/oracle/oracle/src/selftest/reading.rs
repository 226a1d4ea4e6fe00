//! The rules of reading: order of kinds, frame lengths, counts, references, and which of two faults
//! is given.

use super::{Group, lines};

const START: &str = "01020020";

pub fn run(group: &mut Group) {
    kinds(group);
    characters(group);
    lengths(group);
    counts(group);
    references(group);
    faults(group);
}

/// The six starts and the thirty-six pairs, told apart by whether 4 is given.
fn kinds(group: &mut Group) {
    // A line of the kind alone has a wrong length for every kind but 02, so what comes is 6 where
    // the kind may stand there and 4 where it may not; a 02 line without text passes.
    let alone = |kind: usize| format!("{kind:02x}");
    for kind in 1..=6 {
        let expected = if kind == 1 { 6 } else { 4 };
        group.refused(&format!("start {kind}"), &lines(&alone(kind)), expected);
    }
    for previous in 1..=6_usize {
        for present in 1..=6_usize {
            let mut text = before(previous);
            text.push_str(&alone(present));
            // After a query only nodes, before it never a lower kind.
            let allowed = match previous {
                6 => present == 5,
                _ => present > 1 && previous <= present,
            };
            let expected = match (allowed, present) {
                (false, _) => 4,
                // A second empty name is a repeated one, a first is followed by no 06.
                (true, 2) => 4,
                (true, _) => 6,
            };
            group.refused(
                &format!("{previous} then {present}"),
                &lines(&text),
                expected,
            );
        }
    }
    group.refused("kind 00", &lines("01020020\n00"), 4);
    group.refused("kind 07", &lines("01020020\n07"), 4);
    group.refused("kind ff", &lines("01020020\nff"), 4);
}

/// Lines up to and with one of that kind, each right.
fn before(kind: usize) -> String {
    let full = [
        START,
        "0278",
        "0300",
        "04 0000 0000 00",
        "05 00000000 00000000 04",
        "06 0000",
    ];
    full[..kind]
        .iter()
        .map(|line| format!("{line}\n"))
        .collect()
}

fn characters(group: &mut Group) {
    for (case, bytes) in [
        ("an upper case digit", &b"0102002A\n"[..]),
        ("CR before LF", b"01020020\r\n"),
        ("NUL", b"0102002\0\n"),
        ("a blank", b"010200 20\n"),
        ("g", b"0102002g\n"),
        ("the character before 0", b"0102002/\n"),
        ("the character after 9", b"0102002:\n"),
        ("the character before a", b"0102002`\n"),
        ("a byte over 7f", b"0102002\xff\n"),
    ] {
        group.refused(case, bytes, 3);
    }
    let name = |length: usize| {
        let mut text = lines(START);
        text.extend_from_slice(format!("02{}\n", "61".repeat(length)).as_bytes());
        text
    };
    group.refused("a name line of 1,024 characters", &name(511), 4);
    group.refused("a name line of 1,026 characters", &name(512), 3);
    let whole = |length: usize| [&name(length)[..], NODE.as_bytes(), b"060000\n"].concat();
    group.read("a whole file with 1,024 characters in a line", &whole(511));
    group.refused("a whole file with 1,026", &whole(512), 3);

    let m = lines(super::examples::M);
    let mut more = m.clone();
    more.push(b'\n');
    group.refused("M and an LF", &more, 3);
    group.refused("M and a line", &[&m[..], b"060000\n"].concat(), 4);
    group.refused("M and a broken line", &[&m[..], b"06000\n"].concat(), 3);
    group.refused("M without its last LF", &m[..m.len() - 1], 3);
}

/// For each kind and shape, the lengths from bare to long: 6 exactly where the length is wrong.
fn lengths(group: &mut Group) {
    // What stands before, the frame's first bytes, and how long what follows may be.
    let exactly = |n: usize| move |length: usize| length == n;
    let every = |n: usize| move |length: usize| length.is_multiple_of(n);
    type Rule = Box<dyn Fn(usize) -> bool>;
    let mut rows: Vec<(String, String, Rule)> = vec![
        (String::new(), "01".into(), Box::new(exactly(3))),
        (before(1), "02".into(), Box::new(|_| true)),
        (before(2), "03".into(), Box::new(exactly(1))),
        (before(2), "03 00".into(), Box::new(exactly(0))),
        (before(2), "03 01".into(), Box::new(exactly(0))),
        (before(2), "03 02".into(), Box::new(exactly(0))),
        (before(2), "03 03".into(), Box::new(exactly(4))),
        (before(2), "03 04".into(), Box::new(every(4))),
        (before(2), "03 05".into(), Box::new(every(8))),
        (before(2), "03 06".into(), Box::new(|_| false)),
        (before(3), "04".into(), Box::new(exactly(5))),
        (before(3), "04 0000 0000 00".into(), Box::new(exactly(0))),
        (before(3), "04 0000 0000 01".into(), Box::new(exactly(2))),
        (before(3), "04 0000 0000 02".into(), Box::new(|_| false)),
    ];
    let span = "05 00000000 00000000";
    let node = |shape: u8| format!("{span} {shape:02x}");
    rows.push((before(4), "05".into(), Box::new(exactly(9))));
    for (shape, rule) in [
        (0x00, Box::new(exactly(0)) as Rule),
        (0x01, Box::new(exactly(0))),
        (0x02, Box::new(exactly(0))),
        (0x03, Box::new(exactly(2))),
        (0x04, Box::new(exactly(0))),
        (0x05, Box::new(exactly(0))),
        (0x06, Box::new(exactly(2))),
        (0x07, Box::new(exactly(3))),
        (0x08, Box::new(every(4))),
        (0x09, Box::new(exactly(4))),
        (0x0a, Box::new(exactly(2))),
        (0x0b, Box::new(every(2))),
        // Zeros after the head are Bind statements of five bytes.
        (
            0x0c,
            Box::new(|length: usize| length >= 2 && (length - 2).is_multiple_of(5)),
        ),
        (0x0d, Box::new(exactly(6))),
        (0x0e, Box::new(every(2))),
        (0x0f, Box::new(exactly(0))),
        (0x10, Box::new(exactly(4))),
        (0x11, Box::new(|_| false)),
        (0xff, Box::new(|_| false)),
    ] {
        rows.push((before(4), node(shape), rule));
    }
    rows.push((
        before(5),
        "06".into(),
        Box::new(|length| length >= 2 && (length - 2).is_multiple_of(5)),
    ));
    for (tag, size) in [(0, 5), (1, 3), (2, 3), (3, 5), (4, 5)] {
        rows.push((
            before(5),
            format!("06 0000 {tag:02x}"),
            // After one statement of this kind, zeros are Bind statements again.
            Box::new(move |length| length >= size - 1 && (length - (size - 1)).is_multiple_of(5)),
        ));
    }
    rows.push((before(5), "06 0000 05".into(), Box::new(|_| false)));
    rows.push((before(5), "06 0000 ff".into(), Box::new(|_| false)));

    for (above, first, right) in rows {
        for length in 0..=24 {
            let text = format!("{above}{first}{}", "00".repeat(length));
            let found = judge::read(&lines(&text), &judge::Limits::default()).err();
            group.same(
                &format!("{first} and {length} bytes"),
                found == Some(6),
                !right(length),
            );
        }
    }
}

/// The limits and 256 different names.
fn names() -> String {
    let name = |n: usize| format!("02{:02x}{:02x}\n", 0x30 + n / 64, 0x30 + n % 64);
    format!("{START}\n{}", (0..256).map(name).collect::<String>())
}

const NODE: &str = "05000000000000000004\n";

/// Lines with as many names, types, predicates and nodes as allowed, and a query that fits.
fn full() -> [(&'static str, String, &'static str); 4] {
    [
        ("names", names(), "060000"),
        (
            "types",
            format!("{START}\n0278\n{}", "0300\n".repeat(256)),
            "060000",
        ),
        (
            "predicates",
            format!("{START}\n0278\n0300\n{}", "040000000000\n".repeat(128)),
            "060000",
        ),
        ("nodes", format!("{START}\n{}", NODE.repeat(511)), "0601ff"),
    ]
}

/// Exactly as many as allowed, and one more, which is turned down before its content is looked at.
fn counts(group: &mut Group) {
    for (kind, (case, above, query)) in (2..).zip(full()) {
        // The nodes are one short, so that each file can have the node that its query names.
        let last = if kind == 5 { NODE } else { "" };
        group.read(
            &format!("as many {case} as allowed"),
            &lines(&format!("{above}{NODE}{query}")),
        );
        for (fault, line) in [("bare", ""), ("broken", "ff")] {
            let line = format!("{above}{last}{kind:02x}{line}");
            group.refused(&format!("one more of {case}, {fault}"), &lines(&line), 5);
        }
        if kind < 5 {
            let late = format!("{above}{NODE}{kind:02x}");
            group.refused(&format!("one more of {case}, misplaced"), &lines(&late), 4);
        }
        let odd = format!("{above}{last}{kind:02x}f");
        group.refused(&format!("one more of {case}, odd"), &lines(&odd), 3);
    }
}

fn references(group: &mut Group) {
    let node = "05 00000000 00000000 ";
    let above =
        "01020020\n0278\n0300\n04 0000 0000 00\n05 00000000 00000000 04\n05 00000000 00000000 04\n";
    let schema = "01020020\n0278\n0300\n";
    for (case, text, expected) in [
        (
            "a record type's field name",
            format!("{schema}03 04 0001 0000"),
            9,
        ),
        (
            "a record type's own number",
            format!("{schema}03 04 0000 0001"),
            9,
        ),
        (
            "a union's name",
            format!("{schema}03 05 0001 00000000 0000"),
            9,
        ),
        (
            "a union's own number",
            format!("{schema}03 05 0000 00000000 0001"),
            9,
        ),
        (
            "a fact's absent predicate",
            format!("{schema}03 03 ffffffff"),
            4,
        ),
        ("a predicate's name", format!("{schema}04 0001 0000 00"), 9),
        ("a predicate's key", format!("{schema}04 0000 0001 00"), 9),
        (
            "a predicate's value",
            format!("{schema}04 0000 0000 01 0001"),
            9,
        ),
        ("a Var's name", format!("{above}{node}03 0001"), 9),
        ("a Prefix's name", format!("{above}{node}06 0001"), 9),
        ("a Fuzzy's name", format!("{above}{node}07 0001 01"), 9),
        ("a Record's name", format!("{above}{node}08 0001 0000"), 9),
        (
            "a key access's name",
            format!("{above}{node}09 0001 0000"),
            9,
        ),
        ("a Select's name", format!("{above}{node}10 0001 0000"), 9),
        (
            "a Record's own number",
            format!("{above}{node}08 0000 0002"),
            9,
        ),
        (
            "a key access's own number",
            format!("{above}{node}09 0000 0002"),
            9,
        ),
        (
            "a value access's own number",
            format!("{above}{node}0a 0002"),
            9,
        ),
        (
            "a Disjunction's own number",
            format!("{above}{node}0b 0002"),
            9,
        ),
        (
            "a Subquery's own number",
            format!("{above}{node}0c 0002"),
            9,
        ),
        (
            "a Subquery's statement",
            format!("{above}{node}0c 0000 01 0002"),
            9,
        ),
        (
            "a Fact's own number",
            format!("{above}{node}0d 00000000 0002"),
            9,
        ),
        (
            "a Fact's absent predicate",
            format!("{above}{node}0d ffffffff 0000"),
            4,
        ),
        ("an Arith's own number", format!("{above}{node}0e 0002"), 9),
        (
            "a Select's own number",
            format!("{above}{node}10 0000 0002"),
            9,
        ),
        ("the head", format!("{above}06 0002"), 9),
        (
            "a statement's left side",
            format!("{above}06 0000 00 0002 0001"),
            9,
        ),
        (
            "a statement's right side",
            format!("{above}06 0000 04 0001 0002"),
            9,
        ),
        (
            "a node twice in a Record",
            format!("{above}{node}08 0000 0000 0000 0000"),
            9,
        ),
        (
            "a node twice in a Disjunction",
            format!("{above}{node}0b 0000 0000"),
            9,
        ),
        (
            "a Subquery's head again",
            format!("{above}{node}0c 0000 01 0000"),
            9,
        ),
        (
            "a statement with one node twice",
            format!("{above}06 0000 00 0001 0001"),
            9,
        ),
        ("the head again", format!("{above}06 0000 01 0000"), 9),
        (
            "a node named before",
            format!("{above}{node}0a 0000\n06 0000"),
            9,
        ),
        (
            "a record with a name twice",
            format!("{above}{node}08 0000 0000 0000 0001"),
            4,
        ),
    ] {
        group.refused(case, &lines(&text), expected);
    }
    let twice = "03 05 0000 00000000 0000 0000 00000001 0000\n";
    group.read(
        "a union with a name twice, predicates of one name, a node that nothing names",
        &lines(&format!(
            "{schema}{twice}04 0000 0000 00\n04 0000 0001 01 0001\n{node}04\n{node}04\n060001"
        )),
    );
}

/// Two faults on one line give the lower number, and a fault on an earlier line comes first.
fn faults(group: &mut Group) {
    let node = "05 00000000 00000000 ";
    let schema = "01020020\n0278\n0300\n";
    let names = names();
    let whole = format!("{schema}{node}04\n060000\n");
    for (case, text, expected) in [
        (
            "an unknown node shape",
            whole.replace("04\n06", "11\n06"),
            6,
        ),
        ("a last one", whole.replace("04\n06", "ff\n06"), 6),
        ("3 and 4", "01020020\n07g0".to_owned(), 3),
        ("4 and 6", "0300".to_owned(), 4),
        ("4 and 5", format!("{names}0300\n02"), 4),
        ("5 and 7", format!("{names}02ff"), 5),
        ("5 and 8", format!("{names}023030"), 5),
        ("7 and 8", format!("{START}\n02ff\n02ff"), 7),
        (
            "6 and 9 in a type",
            format!("{schema}03 04 0009 0009 00"),
            6,
        ),
        (
            "6 and 9 in a predicate",
            format!("{schema}04 0009 0009 02"),
            6,
        ),
        ("6 and 9 in a node", format!("{schema}{node}03 0009 00"), 6),
        (
            "6 and 9 in a query",
            format!("{schema}06 0009 01 0009 05"),
            6,
        ),
        (
            "6 and 10",
            format!("{schema}03 04 0000 0000 0000 0000 00"),
            6,
        ),
        (
            "9 and 10 in a record",
            format!("{schema}03 04 0000 0000 0000 0000 0000 0009"),
            9,
        ),
        (
            "9 and 10 in a union",
            format!("{schema}03 05 0000 00000001 0000 0000 00000001 0009"),
            9,
        ),
        (
            "10 in a union",
            format!("{schema}03 05 0000 00000001 0000 0000 00000001 0000"),
            10,
        ),
        (
            "10, then 3",
            format!("{schema}03 04 0000 0000 0000 0000\n0"),
            10,
        ),
        ("9, then 4", format!("{schema}04 0009 0000 00\n00"), 9),
        ("6, then 3", "0102\n0".to_owned(), 6),
        ("4, then 3", "02\n0".to_owned(), 4),
    ] {
        group.refused(case, &lines(&text), expected);
    }
}
