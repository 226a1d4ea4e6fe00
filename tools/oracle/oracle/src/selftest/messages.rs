//! The text of each message: what ty.rs says, with the numbers, names and types that stand in it.

use judge::{Answer, Limits};

use super::{Group, lines, report, unused, visits};

/// A file, its reports (the node, the code and the message), and the nodes of names written once. Node n has the span
/// from 2n to 2n + 1.
struct Case {
    case: &'static str,
    file: &'static str,
    reports: &'static [(u32, &'static str, &'static str)],
    unused: &'static [u32],
}

pub fn run(group: &mut Group) {
    let mut seen = vec![];
    for Case {
        case,
        file,
        reports,
        unused: once,
    } in CASES
    {
        let ran = group.answer(&lines(file));
        let expected: String = reports
            .iter()
            .map(|(node, code, message)| report(2 * node, 2 * node + 1, code, message))
            .chain(once.iter().map(|node| unused(2 * node, 2 * node + 1)))
            .chain(ran.visits.iter().map(|made| visits(*made)))
            .collect();
        let Answer::Lines(answer) = &ran.answer else {
            group.same(case, ran.answer, Answer::Lines(expected.into_bytes()));
            continue;
        };
        let found = answer
            .split_inclusive(|byte| *byte == b'\n')
            .skip_while(|line| line.starts_with(b"07"))
            .collect::<Vec<_>>()
            .concat();
        group.same(case, String::from_utf8_lossy(&found).into_owned(), expected);
        at_the_end(group, case, &lines(file), answer.len());
        seen.extend(ran.texts);
    }
    // What no case here has, the list of the computed table has.
    let other = ["contains itself", "no value", "union arity"];
    for text in judge::TEXTS {
        let found = seen.contains(&text) || other.contains(&text);
        group.same(text, found, true);
    }
    long(group);
}

/// The message lines are counted to the answer, the last one's LF too.
fn at_the_end(group: &mut Group, case: &str, file: &[u8], length: usize) {
    for bytes in [length, length - 1] {
        let limits = Limits {
            bytes,
            ..Limits::default()
        };
        let fits = matches!(judge::answer(file, &limits).answer, Answer::Lines(_));
        group.same(case, fits, bytes == length);
    }
}

/// p 1 over a key of records in records, each of the one before twice: the message shows the key whole, and
/// the node lines are short. One of 2^18 parts is longer than any slice, and one of 2^240 is left out.
fn long(group: &mut Group) {
    let file = |levels: u16| {
        let mut text = "01 02 0020\n02 61\n02 62\n03 00\n".to_owned();
        for level in 0..levels {
            text += &format!("03 04 0000 {level:04x} 0001 {level:04x}\n");
        }
        text += &format!("04 0000 {levels:04x} 00\n");
        text += "05 00000000 00000001 00\n05 00000002 00000003 0d 00000000 0000\n06 0001\n";
        lines(&text)
    };
    let mut key = "an integer".to_owned();
    for levels in 1..=9 {
        key = format!("{{a = {key}, b = {key}}}");
        let mut expected = lines("07 0000 ff\n07 0001 03 00000000");
        let message = format!("expected {key}, found an integer");
        let report = report(0, 1, "reject/type-mismatch", &message);
        expected.extend_from_slice(report.as_bytes());
        // The one entry to unify that fails.
        expected.extend_from_slice(visits(1).as_bytes());
        let ran = group.answer(&file(levels));
        group.same("a key in a message", ran.answer, Answer::Lines(expected));
    }
    for levels in [11, 18] {
        group.refused("a key too long for the slice", &file(levels), 12);
    }
    let ran = group.answer(&file(240));
    let left_out = Answer::LeftOut(judge::TOO_LARGE);
    group.same("a key of 2^240 parts", ran.answer, left_out);

    // The same with names of 500 bytes: the types can be held, and the text can't.
    let mut text = format!("01 02 0020\n02 {}\n02 62\n03 00\n", "61".repeat(500));
    for level in 0..17 {
        text += &format!("03 04 0000 {level:04x} 0001 {level:04x}\n");
    }
    text += "04 0000 0011 00\n05 00000000 00000001 00\n05 00000002 00000003 0d 00000000 0000\n06 0001\n";
    let ran = group.answer(&lines(&text));
    let left_out = Answer::LeftOut(judge::TOO_LONG);
    group.same("a text of 2^17 long names", ran.answer, left_out);
}

const CASES: &[Case] = &[
    // Left sides and the head: 1 = 1; _ != 1; 1 | 1 = 1; {} != 1, head _.
    Case {
        case: "left sides and the head",
        file: "
            01 020020
            05 00000000 00000001 00
            05 00000002 00000003 00
            05 00000004 00000005 04
            05 00000006 00000007 00
            05 00000008 00000009 00
            05 0000000a 0000000b 00
            05 0000000c 0000000d 0b 00040005
            05 0000000e 0000000f 00
            05 00000010 00000011 08
            05 00000012 00000013 00
            05 00000014 00000015 04
            06 000a0000000001030002000300000600070300080009",
        reports: &[
            (
                0,
                "reject/bind-lhs",
                "a literal cannot be bound to; put the variable on the left",
            ),
            (
                2,
                "reject/bind-lhs",
                "nothing here can be denied; put the variable on the left",
            ),
            (
                6,
                "nyi/bind-unification",
                "matching two patterns against each other is not implemented yet",
            ),
            (
                8,
                "nyi/bind-unification",
                "denying anything but a variable is not implemented yet",
            ),
            (
                10,
                "reject/wildcard-in-head",
                "a wildcard head projects nothing",
            ),
        ],
        unused: &[],
    },
    // The file's own limits, 3 and 2: a term of three characters in five bytes at distance 4 has two
    // messages.
    Case {
        case: "two messages at one node",
        file: "
            01 030002
            02 6162e282ac
            05 00000000 00000001 07 000004
            05 00000002 00000003 00
            06 0001010000",
        reports: &[
            (
                0,
                "reject/fuzzy-distance",
                "an edit distance of 4 is outside 1..=3",
            ),
            (
                0,
                "reject/fuzzy-term",
                "a fuzzy term of 3 characters is longer than the 2 a match is built for",
            ),
        ],
        unused: &[],
    },
    // What is read: x.f; (p _).value where a field is called so; 1.value; "".f; {}.f; u.f, b.a?, u.f?
    // of the union u = (q _).value and bytes b; q {f = 1}.
    Case {
        case: "what is read",
        file: "
            01 020020
            02 76616c7565
            02 61
            02 70
            02 71
            02 78
            02 66
            03 00
            03 0400000000
            03 050001000000070000
            04 00020001010002
            04 00030002010002
            05 00000000 00000001 03 0004
            05 00000002 00000003 09 00050000
            05 00000004 00000005 04
            05 00000006 00000007 0d 000000000002
            05 00000008 00000009 0a 0003
            05 0000000a 0000000b 00
            05 0000000c 0000000d 0a 0005
            05 0000000e 0000000f 01
            05 00000010 00000011 09 00050007
            05 00000012 00000013 08
            05 00000014 00000015 09 00050009
            05 00000016 00000017 04
            05 00000018 00000019 0d 00000001000b
            05 0000001a 0000001b 0a 000c
            05 0000001c 0000001d 09 0005000d
            05 0000001e 0000001f 02
            05 00000020 00000021 10 0001000f
            05 00000022 00000023 04
            05 00000024 00000025 0d 000000010011
            05 00000026 00000027 0a 0012
            05 00000028 00000029 10 00050013
            05 0000002a 0000002b 00
            05 0000002c 0000002d 08 00050015
            05 0000002e 0000002f 0d 000000010016
            05 00000030 00000031 00
            06 001801000101000401000601000801000a01000e010010010014010017",
        reports: &[
            (
                1,
                "reject/unresolved-access",
                "the type of this value is not known here, so its field cannot be resolved",
            ),
            (
                4,
                "reject/value-shadowed",
                "this predicate has a key field called `value`, so `.value` is ambiguous",
            ),
            (
                6,
                "reject/type-mismatch",
                "only a fact has a value; this is an integer",
            ),
            (8, "reject/type-mismatch", "a string has no fields"),
            (10, "reject/unknown-field", "`f` is not a field here"),
            (
                14,
                "reject/type-mismatch",
                "{a : an integer = 7} has no fields",
            ),
            (
                16,
                "reject/not-a-union",
                "only a union has alternatives; this is bytes",
            ),
            (
                20,
                "reject/unknown-alternative",
                "`f` is not an alternative of this union",
            ),
            (
                22,
                "reject/unknown-alternative",
                "`f` is not an alternative of this union",
            ),
        ],
        unused: &[0],
    },
    // Unions: x of {b : Int = 4294967295 | a : Int = 0} in the places of {a : Int = 0}, of one that
    // has c at 0 and a string at b, of two strings, and of {}.
    Case {
        case: "unions that differ",
        file: "
            01 020020
            02 62
            02 61
            02 63
            02 70
            02 78
            03 00
            03 01
            03 050000ffffffff00000001000000000000
            03 050001000000000000
            03 0500020000000000000000ffffffff0001
            03 050000ffffffff00010001000000000001
            03 05
            04 0003000200
            04 0003000300
            04 0003000400
            04 0003000500
            04 0003000600
            05 00000000 00000001 03 0004
            05 00000002 00000003 0d 000000000000
            05 00000004 00000005 03 0004
            05 00000006 00000007 0d 000000010002
            05 00000008 00000009 03 0004
            05 0000000a 0000000b 0d 000000020004
            05 0000000c 0000000d 03 0004
            05 0000000e 0000000f 0d 000000030006
            05 00000010 00000011 03 0004
            05 00000012 00000013 0d 000000040008
            05 00000014 00000015 00
            06 000a010001010003010005010007010009",
        reports: &[
            (
                2,
                "reject/type-mismatch",
                "expected {a : an integer = 0}, found {b : an integer = 4294967295 | a : an integer = 0}: only one of them declares `b` = 4294967295",
            ),
            (
                4,
                "reject/type-mismatch",
                "expected {c : an integer = 0 | b : a string = 4294967295}, found {b : an integer = 4294967295 | a : an integer = 0}: discriminant 0 is `c`, not `a`",
            ),
            (
                6,
                "reject/type-mismatch",
                "expected {b : a string = 4294967295 | a : a string = 0}, found {b : an integer = 4294967295 | a : an integer = 0}: alternative `a` = 0 carries a different payload",
            ),
            (
                8,
                "reject/type-mismatch",
                "expected {}, found {b : an integer = 4294967295 | a : an integer = 0}: only one of them declares `a` = 0",
            ),
        ],
        unused: &[0],
    },
    // A union in a union is shown by the outer one, a union in a record by itself.
    Case {
        case: "the outer union, the inner union of a record",
        file: "
            01 020020
            02 61
            02 62
            02 6f
            02 72
            02 70
            02 78
            02 79
            03 00
            03 050000000000010000
            03 050001000000010000
            03 050002000000020001
            03 050002000000020002
            03 0400030001
            03 0400030002
            04 0004000300
            04 0004000400
            04 0004000500
            04 0004000600
            05 00000000 00000001 03 0005
            05 00000002 00000003 0d 000000000000
            05 00000004 00000005 03 0005
            05 00000006 00000007 0d 000000010002
            05 00000008 00000009 03 0006
            05 0000000a 0000000b 0d 000000020004
            05 0000000c 0000000d 03 0006
            05 0000000e 0000000f 0d 000000030006
            05 00000010 00000011 00
            06 0008010001010003010005010007",
        reports: &[
            (
                2,
                "reject/type-mismatch",
                "expected {o : {b : an integer = 1} = 2}, found {o : {a : an integer = 1} = 2}: alternative `o` = 2 carries a different payload",
            ),
            (
                6,
                "reject/type-mismatch",
                "expected {b : an integer = 1}, found {a : an integer = 1}: discriminant 1 is `b`, not `a`",
            ),
        ],
        unused: &[0, 4],
    },
    // No binding is followed: k = 1; z = {k = k, e = error, f = p _, g = absent 9 _, s = "", b =
    // bytes, r = {}}; z = 1.
    Case {
        case: "no binding is followed",
        file: "
            01 020020
            02 70
            02 6b
            02 7a
            02 65
            02 66
            02 67
            02 73
            02 62
            02 72
            03 00
            04 0000000000
            05 00000000 00000001 03 0001
            05 00000002 00000003 00
            05 00000004 00000005 03 0002
            05 00000006 00000007 03 0001
            05 00000008 00000009 0f
            05 0000000a 0000000b 04
            05 0000000c 0000000d 0d 000000000005
            05 0000000e 0000000f 04
            05 00000010 00000011 0d 000000090007
            05 00000012 00000013 01
            05 00000014 00000015 02
            05 00000016 00000017 08
            05 00000018 00000019 08 00010003000300040004000600050008000600090007000a0008000b
            05 0000001a 0000001b 03 0002
            05 0000001c 0000001d 00
            05 0000001e 0000001f 03 0001
            06 000f0000000001000002000c00000d000e",
        reports: &[(
            14,
            "reject/type-mismatch",
            "expected {k = an unknown type, e = (already reported), f = `p`, g = a fact, s = a string, b = bytes, r = {}}, found an integer",
        )],
        unused: &[],
    },
    // What has no order is resolved with the bindings of its moment: k; p {f = (1 where k = bytes; l
    // = {k = k, m = m, f = absent 9 _}; l < l)}; k = 1, head k.
    Case {
        case: "resolved at its moment",
        file: "
            01 020020
            02 66
            02 70
            02 6b
            02 6c
            02 6d
            03 00
            03 0400000000
            04 0001000100
            05 00000000 00000001 03 0002
            05 00000002 00000003 03 0002
            05 00000004 00000005 02
            05 00000006 00000007 03 0003
            05 00000008 00000009 04
            05 0000000a 0000000b 0d 000000090004
            05 0000000c 0000000d 03 0002
            05 0000000e 0000000f 03 0004
            05 00000010 00000011 08 000200060004000700000005
            05 00000012 00000013 03 0003
            05 00000014 00000015 03 0003
            05 00000016 00000017 00
            05 00000018 00000019 0c 000b00000100020000030008040009000a
            05 0000001a 0000001b 08 0000000c
            05 0000001c 0000001d 0d 00000000000d
            05 0000001e 0000001f 03 0002
            05 00000020 00000021 00
            05 00000022 00000023 03 0002
            06 001101000001000e00000f0010",
        reports: &[(
            9,
            "reject/type-mismatch",
            "{k = bytes, m = an unknown type, f = a fact} has no order — it holds a reference, and a reference compares by which fact was written first",
        )],
        unused: &[7],
    },
];
