//! M, the whole case, and the files of the list that "Contract and case" has a computed table for.

use judge::Answer;

use super::{Group, lines, report, unused, visits};

/// M: the smallest file.
pub const M: &str = "
    01020020
    05000000000000000300
    060000";

pub const M_PRINTS: &str = "
    07000000
    0900000000";

const WHOLE: &str = "
    01020020
    0278
    0266
    050000000000000001030000
    05000000090000000a030000
    05000000040000000b0800010001
    050000000f00000010030000
    0600030000000002";

const WHOLE_PRINTS: &str = "
    070000060000
    070001060000
    0700020400010001060000
    070003060000
    08000000040000000b72656a6563742f696e66696e6974652d74797065
    0a74686973207061747465726e20776f756c64206861766520746f20636f6e7461696e20697473656c66
    0900000003";

/// M read as document 01 writes it: its node line has ten bytes.
fn m() -> Vec<u8> {
    lines(M)
}

pub fn whole(group: &mut Group) {
    let ran = group.answer(&m());
    group.same("M", ran.answer, Answer::Lines(lines(M_PRINTS)));
    group.same("M's visits", ran.visits, vec![0]);

    let ran = group.answer(&lines(WHOLE));
    group.same(
        "the whole case",
        ran.answer,
        Answer::Lines(lines(WHOLE_PRINTS)),
    );
    // unify at the bind; occurs at the record and at the unknown in it.
    group.same("its visits", ran.visits, vec![3]);
    group.same("its codes", ran.codes, vec!["reject/infinite-type"]);
}

/// One row: a file, the types it prints, its reports, the nodes of names written once, and its visits.
pub struct Row {
    pub case: &'static str,
    pub file: &'static str,
    pub types: &'static str,
    pub reports: &'static [(u32, u32, &'static str, &'static str)],
    pub unused: &'static [u32],
    pub visits: u64,
}

pub fn table(group: &mut Group) {
    rows(group, ROWS);
}

/// In the files, node n has the span from 2n to 2n + 1.
pub fn rows(group: &mut Group, rows: &[Row]) {
    for row in rows {
        let mut expected = lines(row.types);
        for (start, end, code, message) in row.reports {
            expected.extend_from_slice(report(*start, *end, code, message).as_bytes());
        }
        for node in row.unused {
            expected.extend_from_slice(unused(2 * node, 2 * node + 1).as_bytes());
        }
        expected.extend_from_slice(visits(row.visits).as_bytes());
        let ran = group.answer(&lines(row.file));
        group.same(row.case, ran.answer, Answer::Lines(expected));
        group.same(row.case, ran.visits, vec![row.visits]);
        let codes: Vec<&str> = row.reports.iter().map(|(_, _, code, _)| *code).collect();
        group.same(row.case, ran.codes, codes);
    }
}

const ROWS: &[Row] = &[
    Row {
        case: "M",
        file: M,
        types: "07 0000 00",
        reports: &[],
        unused: &[],
        visits: 0,
    },
    Row {
        case: "the whole case",
        file: WHOLE,
        types: "
            07 0000 060000
            07 0001 060000
            07 0002 04 0001 0001 060000
            07 0003 060000",
        reports: &[(
            4,
            11,
            "reject/infinite-type",
            "this pattern would have to contain itself",
        )],
        unused: &[],
        visits: 3,
    },
    // x = error, head x: the unknown becomes Error.
    Row {
        case: "Error against Var",
        file: "
            01 02 0020
            02 78
            05 00000000 00000001 03 0000
            05 00000002 00000003 0f
            05 00000004 00000005 03 0000
            06 0002 00 0000 0001",
        types: "
            07 0000 07
            07 0001 07
            07 0002 07",
        reports: &[],
        unused: &[],
        visits: 1,
    },
    // x = {a = 1, b = \"\"}; x = {b = \"\", a = 1}, head x.
    Row {
        case: "{a, b} against {b, a}",
        file: "
            01 02 0020
            02 78
            02 61
            02 62
            05 00000000 00000001 03 0000
            05 00000002 00000003 00
            05 00000004 00000005 01
            05 00000006 00000007 08 0001 0001 0002 0002
            05 00000008 00000009 03 0000
            05 0000000a 0000000b 01
            05 0000000c 0000000d 00
            05 0000000e 0000000f 08 0002 0005 0001 0006
            05 00000010 00000011 03 0000
            06 0008 00 0000 0003 00 0004 0007",
        types: "
            07 0000 04 0002 0001 00 0002 01
            07 0001 00
            07 0002 01
            07 0003 04 0002 0001 00 0002 01
            07 0004 04 0002 0001 00 0002 01
            07 0005 01
            07 0006 00
            07 0007 04 0002 0002 01 0001 00
            07 0008 04 0002 0001 00 0002 01",
        reports: &[],
        unused: &[],
        // First bind: unify, occurs at the record and its two fields. Second: unify and two inner.
        visits: 7,
    },
    // x = {a = 1, b = \"\"}; x = {a = 1, a = 1}: the found side has a twice.
    Row {
        case: "{a, a} of Int against {a = Int, b = String}",
        file: "
            01 02 0020
            02 78
            02 61
            02 62
            05 00000000 00000001 03 0000
            05 00000002 00000003 00
            05 00000004 00000005 01
            05 00000006 00000007 08 0001 0001 0002 0002
            05 00000008 00000009 03 0000
            05 0000000a 0000000b 00
            05 0000000c 0000000d 00
            05 0000000e 0000000f 08 0001 0005 0001 0006
            05 00000010 00000011 03 0000
            06 0008 00 0000 0003 00 0004 0007",
        types: "
            07 0000 04 0002 0001 00 0002 01
            07 0001 00
            07 0002 01
            07 0003 04 0002 0001 00 0002 01
            07 0004 04 0002 0001 00 0002 01
            07 0005 00
            07 0006 00
            07 0007 04 0002 0001 00 0001 00
            07 0008 04 0002 0001 00 0002 01",
        reports: &[],
        unused: &[],
        visits: 7,
    },
    // x = {a = 1, a = 1}; x = {a = 1, b = \"\"}: b is sought in {a, a}.
    Row {
        case: "{a = Int, b = String} against {a, a} of Int",
        file: "
            01 02 0020
            02 78
            02 61
            02 62
            05 00000000 00000001 03 0000
            05 00000002 00000003 00
            05 00000004 00000005 00
            05 00000006 00000007 08 0001 0001 0001 0002
            05 00000008 00000009 03 0000
            05 0000000a 0000000b 00
            05 0000000c 0000000d 01
            05 0000000e 0000000f 08 0001 0005 0002 0006
            05 00000010 00000011 03 0000
            06 0008 00 0000 0003 00 0004 0007",
        types: "
            07 0000 04 0002 0001 00 0001 00
            07 0001 00
            07 0002 00
            07 0003 04 0002 0001 00 0001 00
            07 0004 04 0002 0001 00 0001 00
            07 0005 00
            07 0006 01
            07 0007 04 0002 0001 00 0002 01
            07 0008 04 0002 0001 00 0001 00",
        reports: &[(14, 15, "reject/unknown-field", "`b` is not a field here")],
        unused: &[],
        // First bind as before, 4. Second: unify and the one for a; b is not found.
        visits: 6,
    },
    // p {} where p's key is the union {a : Int = 0}.
    Row {
        case: "union arity 0",
        file: "
            01 02 0020
            02 70
            02 61
            03 00
            03 05 0001 00000000 0000
            04 0000 0001 00
            05 00000000 00000001 08
            05 00000002 00000003 0d 00000000 0000
            05 00000004 00000005 00
            06 0002 01 0001",
        types: "
            07 0000 ff
            07 0001 03 00000000
            07 0002 00",
        reports: &[(
            0,
            1,
            "reject/union-arity",
            "a union value is one alternative, and this names 0",
        )],
        unused: &[],
        visits: 0,
    },
    // p {a = 1, a = 1} over the same schema.
    Row {
        case: "union arity 2",
        file: "
            01 02 0020
            02 70
            02 61
            03 00
            03 05 0001 00000000 0000
            04 0000 0001 00
            05 00000000 00000001 00
            05 00000002 00000003 00
            05 00000004 00000005 08 0001 0000 0001 0001
            05 00000006 00000007 0d 00000000 0002
            05 00000008 00000009 00
            06 0004 01 0003",
        types: "
            07 0000 ff
            07 0001 ff
            07 0002 ff
            07 0003 03 00000000
            07 0004 00",
        reports: &[(
            4,
            5,
            "reject/union-arity",
            "a union value is one alternative, and this names 2",
        )],
        unused: &[],
        visits: 0,
    },
    // p _ < p _ where p's key is Int.
    Row {
        case: "two facts compared",
        file: "
            01 02 0020
            02 70
            03 00
            04 0000 0000 00
            05 00000000 00000001 04
            05 00000002 00000003 0d 00000000 0000
            05 00000004 00000005 04
            05 00000006 00000007 0d 00000000 0002
            05 00000008 00000009 00
            06 0004 04 0001 0003",
        types: "
            07 0000 00
            07 0001 03 00000000
            07 0002 00
            07 0003 03 00000000
            07 0004 00",
        reports: &[(
            2,
            3,
            "reject/type-mismatch",
            "`p` has no order — it holds a reference, and a reference compares by which fact was written first",
        )],
        unused: &[],
        visits: 2,
    },
    // {} < {}.
    Row {
        case: "the empty record compared",
        file: "
            01 02 0020
            05 00000000 00000001 08
            05 00000002 00000003 08
            05 00000004 00000005 00
            06 0002 04 0000 0001",
        types: "
            07 0000 04 0000
            07 0001 04 0000
            07 0002 00",
        reports: &[],
        unused: &[],
        visits: 2,
    },
    // p {f = {g = y}} where p's key is {f : Int}; head y, which gets unknown 1.
    Row {
        case: "a rollback past a new unknown",
        file: "
            01 02 0020
            02 70
            02 66
            02 67
            02 79
            03 00
            03 04 0001 0000
            04 0000 0001 00
            05 00000000 00000001 03 0003
            05 00000002 00000003 08 0002 0000
            05 00000004 00000005 08 0001 0001
            05 00000006 00000007 0d 00000000 0002
            05 00000008 00000009 03 0003
            06 0004 01 0003",
        types: "
            07 0000 ff
            07 0001 ff
            07 0002 04 0001 0001 00
            07 0003 03 00000000
            07 0004 06 0001",
        reports: &[(
            2,
            3,
            "reject/type-mismatch",
            "expected an integer, found {g = an unknown type}",
        )],
        unused: &[4],
        visits: 1,
    },
    // (absent 7 _).f, and its key node is not visited.
    Row {
        case: "key access on an absent predicate",
        file: "
            01 02 0020
            02 66
            05 00000000 00000001 04
            05 00000002 00000003 0d 00000007 0000
            05 00000004 00000005 09 0000 0001
            06 0002",
        types: "
            07 0000 ff
            07 0001 03 00000007
            07 0002 07",
        reports: &[],
        unused: &[],
        visits: 0,
    },
    // x = p _; x = (absent 65536 _): 65,536 is not predicate 0.
    Row {
        case: "facts of two predicates whose low halves are alike",
        file: "
            01 02 0020
            02 70
            02 78
            03 00
            04 0000 0000 00
            05 00000000 00000001 03 0001
            05 00000002 00000003 04
            05 00000004 00000005 0d 00000000 0001
            05 00000006 00000007 03 0001
            05 00000008 00000009 04
            05 0000000a 0000000b 0d 00010000 0004
            05 0000000c 0000000d 03 0001
            06 0006 00 0000 0002 00 0003 0005",
        types: "
            07 0000 03 00000000
            07 0001 00
            07 0002 03 00000000
            07 0003 03 00000000
            07 0004 ff
            07 0005 03 00010000
            07 0006 03 00000000",
        reports: &[(10, 11, "reject/type-mismatch", "expected `p`, found a fact")],
        unused: &[],
        // First bind: unify and occurs at the fact. Second: unify.
        visits: 3,
    },
    // p's key is a fact of 4,294,967,295: q of 65,535 does not fit it, and r of it does.
    Row {
        case: "the greatest predicate number",
        file: "
            01 02 0020
            02 70
            03 03 ffffffff
            04 0000 0000 00
            05 00000000 00000001 04
            05 00000002 00000003 0d 0000ffff 0000
            05 00000004 00000005 0d 00000000 0001
            05 00000006 00000007 04
            05 00000008 00000009 0d ffffffff 0003
            05 0000000a 0000000b 0d 00000000 0004
            06 0002 01 0005",
        types: "
            07 0000 ff
            07 0001 ff
            07 0002 03 00000000
            07 0003 ff
            07 0004 03 ffffffff
            07 0005 03 00000000",
        reports: &[(
            2,
            3,
            "reject/type-mismatch",
            "expected a fact, found a fact",
        )],
        unused: &[],
        visits: 2,
    },
    // (absent 7 _).value.
    Row {
        case: "value access on an absent predicate",
        file: "
            01 02 0020
            05 00000000 00000001 04
            05 00000002 00000003 0d 00000007 0000
            05 00000004 00000005 0a 0001
            06 0002",
        types: "
            07 0000 ff
            07 0001 03 00000007
            07 0002 07",
        reports: &[(4, 5, "reject/no-value", "this predicate has no value")],
        unused: &[],
        visits: 0,
    },
    // Three fuzzy patterns as statements, head an integer.
    Row {
        case: "fuzzy distances 0, 2 and 3 with limit 2",
        file: "
            01 02 0020
            02 66
            05 00000000 00000001 07 0000 00
            05 00000002 00000003 07 0000 02
            05 00000004 00000005 07 0000 03
            05 00000006 00000007 00
            06 0003 01 0000 01 0001 01 0002",
        types: "
            07 0000 01
            07 0001 01
            07 0002 01
            07 0003 00",
        reports: &[
            (
                0,
                1,
                "reject/fuzzy-distance",
                "an edit distance of 0 is outside 1..=2",
            ),
            (
                4,
                5,
                "reject/fuzzy-distance",
                "an edit distance of 3 is outside 1..=2",
            ),
        ],
        unused: &[],
        visits: 0,
    },
];
