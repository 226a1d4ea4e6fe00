//! Names written once: what card 9 says outright. The first seven are those of the computed table.

use judge::{Answer, Limits};

use super::examples::{Row, rows};
use super::{Group, lines, unused, visits};

pub fn run(group: &mut Group) {
    rows(group, ROWS);
    for row in ROWS {
        at_the_end(group, row);
    }
    each_query(group);
}

/// The lines 0c are counted to the answer.
fn at_the_end(group: &mut Group, row: &Row) {
    let Answer::Lines(answer) = group.answer(&lines(row.file)).answer else {
        return;
    };
    for bytes in [answer.len(), answer.len() - 1] {
        let limits = Limits {
            bytes,
            ..Limits::default()
        };
        let found = judge::answer(&lines(row.file), &limits).answer;
        let expected = match bytes == answer.len() {
            true => Answer::Lines(answer.clone()),
            false => Answer::Refused(12),
        };
        group.same(row.case, found, expected);
    }
}

/// Of several queries each has its own lines before its visits: x; and x where "" is left out.
fn each_query(group: &mut Group) {
    let file = "
        01 02 0020
        02 78
        05 00000000 00000001 03 0000
        06 0000
        05 00000002 00000003 01
        05 00000004 00000005 03 0000
        06 0001";
    let expected = format!(
        "0b0000\n070000060000\n{}{}0b0001\n070000ff\n070001060000\n{}{}",
        unused(0, 1),
        visits(0),
        unused(4, 5),
        visits(0)
    );
    let found = group.answer(&lines(file)).answer;
    group.same(
        "a line in each query",
        found,
        Answer::Lines(expected.into_bytes()),
    );
}

const MISMATCH: &str = "reject/type-mismatch";

/// In those with a schema, p's key is {f : Int}, and the names are p, f, x and y.
const ROWS: &[Row] = &[
    // The right side finds the entry that the left side made.
    Row {
        case: "x < x",
        file: "
            01 02 0020
            02 78
            05 00000000 00000001 03 0000
            05 00000002 00000003 03 0000
            05 00000004 00000005 00
            06 0002 04 0000 0001",
        types: "
            07 0000 06 0000
            07 0001 06 0000
            07 0002 00",
        reports: &[],
        unused: &[],
        visits: 2,
    },
    // The left side finds its own entry.
    Row {
        case: "x < 3",
        file: "
            01 02 0020
            02 78
            05 00000000 00000001 03 0000
            05 00000002 00000003 00
            05 00000004 00000005 00
            06 0002 04 0000 0001",
        types: "
            07 0000 00
            07 0001 00
            07 0002 00",
        reports: &[],
        unused: &[0],
        visits: 3,
    },
    // x = ""; p {f = x}.
    Row {
        case: "a mark taken back with a failed field",
        file: "
            01 02 0020
            02 70
            02 66
            02 78
            02 79
            03 00
            03 04 0001 0000
            04 0000 0001 00
            05 00000000 00000001 03 0002
            05 00000002 00000003 01
            05 00000004 00000005 03 0002
            05 00000006 00000007 08 0001 0002
            05 00000008 00000009 0d 00000000 0003
            05 0000000a 0000000b 00
            06 0005 00 0000 0001 01 0004",
        types: "
            07 0000 01
            07 0001 01
            07 0002 ff
            07 0003 04 0001 0001 00
            07 0004 03 00000000
            07 0005 00",
        reports: &[(4, 5, MISMATCH, "expected an integer, found a string")],
        unused: &[0],
        visits: 3,
    },
    // x = 1; p {f = x}.
    Row {
        case: "a mark that stays with its field",
        file: "
            01 02 0020
            02 70
            02 66
            02 78
            02 79
            03 00
            03 04 0001 0000
            04 0000 0001 00
            05 00000000 00000001 03 0002
            05 00000002 00000003 00
            05 00000004 00000005 03 0002
            05 00000006 00000007 08 0001 0002
            05 00000008 00000009 0d 00000000 0003
            05 0000000a 0000000b 00
            06 0005 00 0000 0001 01 0004",
        types: "
            07 0000 00
            07 0001 00
            07 0002 00
            07 0003 04 0001 0001 00
            07 0004 03 00000000
            07 0005 00",
        reports: &[],
        unused: &[],
        visits: 3,
    },
    // p {f = ("" where y)}.
    Row {
        case: "a Subquery's line inside a failed field",
        file: "
            01 02 0020
            02 70
            02 66
            02 78
            02 79
            03 00
            03 04 0001 0000
            04 0000 0001 00
            05 00000000 00000001 03 0003
            05 00000002 00000003 01
            05 00000004 00000005 0c 0001 01 0000
            05 00000006 00000007 08 0001 0002
            05 00000008 00000009 0d 00000000 0003
            05 0000000a 0000000b 00
            06 0005 01 0004",
        types: "
            07 0000 ff
            07 0001 ff
            07 0002 ff
            07 0003 04 0001 0001 00
            07 0004 03 00000000
            07 0005 00",
        reports: &[(4, 5, MISMATCH, "expected an integer, found a string")],
        unused: &[0],
        visits: 1,
    },
    // p {f = {f = y}}.
    Row {
        case: "an entry that a rollback removes",
        file: "
            01 02 0020
            02 70
            02 66
            02 78
            02 79
            03 00
            03 04 0001 0000
            04 0000 0001 00
            05 00000000 00000001 03 0003
            05 00000002 00000003 08 0001 0000
            05 00000004 00000005 08 0001 0001
            05 00000006 00000007 0d 00000000 0002
            05 00000008 00000009 00
            06 0004 01 0003",
        types: "
            07 0000 ff
            07 0001 ff
            07 0002 04 0001 0001 00
            07 0003 03 00000000
            07 0004 00",
        reports: &[(
            2,
            3,
            MISMATCH,
            "expected an integer, found {f = an unknown type}",
        )],
        unused: &[],
        visits: 1,
    },
    // y; x; (1 where p): the subquery's entry leaves first, then the older of the two.
    Row {
        case: "entries in order of leaving",
        file: "
            01 02 0020
            02 70
            02 66
            02 78
            02 79
            03 00
            03 04 0001 0000
            04 0000 0001 00
            05 00000000 00000001 03 0002
            05 00000002 00000003 03 0003
            05 00000004 00000005 03 0000
            05 00000006 00000007 00
            05 00000008 00000009 0c 0003 01 0002
            05 0000000a 0000000b 00
            06 0005 01 0001 01 0000 01 0004",
        types: "
            07 0000 06 0001
            07 0001 06 0000
            07 0002 06 0002
            07 0003 00
            07 0004 00
            07 0005 00",
        reports: &[],
        unused: &[2, 1, 0],
        visits: 0,
    },
    // x; (1 where x).
    Row {
        case: "an outer entry that a Subquery finds",
        file: "
            01 02 0020
            02 78
            05 00000000 00000001 03 0000
            05 00000002 00000003 03 0000
            05 00000004 00000005 00
            05 00000006 00000007 0c 0002 01 0001
            05 00000008 00000009 00
            06 0004 01 0000 01 0003",
        types: "
            07 0000 06 0000
            07 0001 06 0000
            07 0002 00
            07 0003 00
            07 0004 00",
        reports: &[],
        unused: &[],
        visits: 0,
    },
    // (1 where x; x); x.
    Row {
        case: "the same name after a Subquery",
        file: "
            01 02 0020
            02 78
            05 00000000 00000001 03 0000
            05 00000002 00000003 03 0000
            05 00000004 00000005 00
            05 00000006 00000007 0c 0002 01 0000 01 0001
            05 00000008 00000009 03 0000
            05 0000000a 0000000b 00
            06 0005 01 0003 01 0004",
        types: "
            07 0000 06 0000
            07 0001 06 0000
            07 0002 00
            07 0003 00
            07 0004 06 0001
            07 0005 00",
        reports: &[],
        unused: &[4],
        visits: 0,
    },
    // x = x; x != 1, head y: x is marked where it is bound, and y is the head's alone.
    Row {
        case: "a variable bound to itself, and one in the head alone",
        file: "
            01 02 0020
            02 78
            02 79
            05 00000000 00000001 03 0000
            05 00000002 00000003 03 0000
            05 00000004 00000005 03 0000
            05 00000006 00000007 00
            05 00000008 00000009 03 0001
            06 0004 00 0000 0001 03 0002 0003",
        types: "
            07 0000 00
            07 0001 00
            07 0002 00
            07 0003 00
            07 0004 06 0001",
        reports: &[],
        unused: &[4],
        visits: 3,
    },
    // x != 1.
    Row {
        case: "a variable that is denied",
        file: "
            01 02 0020
            02 78
            05 00000000 00000001 03 0000
            05 00000002 00000003 00
            05 00000004 00000005 00
            06 0002 03 0000 0001",
        types: "
            07 0000 00
            07 0001 00
            07 0002 00",
        reports: &[],
        unused: &[0],
        visits: 2,
    },
];
