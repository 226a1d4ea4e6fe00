//! The octet sequences that RFC 3629 gives as examples, as names.

use judge::{Answer, File, Limits, Node, Query, Shape, Tree};

use super::Group;

/// Section 7, with the number of characters.
const WELL_FORMED: [(&[u8], u16); 4] = [
    (b"\x41\xe2\x89\xa2\xce\x91\x2e", 4),
    (b"\xed\x95\x9c\xea\xb5\xad\xec\x96\xb4", 3),
    (b"\xe6\x97\xa5\xe6\x9c\xac\xe8\xaa\x9e", 3),
    (b"\xef\xbb\xbf\xf0\xa3\x8e\xb4", 2),
];

/// Sections 3 and 10: overlong forms.
const ILL_FORMED: [&[u8]; 2] = [b"\xc0\x80", b"\x2f\xc0\xae\x2e\x2f"];

/// Section 3: halves of UTF-16 pairs, alone, as pairs and beside sound characters.
const HALVES: [&[u8]; 8] = [
    b"\xed\xa1\x8c\xed\xbe\xb4",
    b"\xed\xa0\xbd\xed\xb8\x80",
    b"\xed\xa0\x80",
    b"\xed\xad\xbf",
    b"\xed\xaf\xbf",
    b"\xed\xb0\x80",
    b"\x41\xed\xa0\xbd\x41",
    b"\xed\x9f\xbf\xed\xbf\xbf\xee\x80\x80",
];

/// Each boundary of the rule: the text, and whether it passes.
const BOUNDARIES: [(&[u8], bool); 33] = [
    (b"", true),
    (b"\x00", true),
    (b"\x7f", true),
    (b"\x80", false),
    (b"\xbf", false),
    (b"\xc1\xbf", false),
    (b"\xc2\x80", true),
    (b"\xdf\xbf", true),
    (b"\xc2", false),
    (b"\xc2\x7f", false),
    (b"\xc2\xc0", false),
    (b"\xe0\x9f\xbf", false),
    (b"\xe0\xa0\x80", true),
    (b"\xe0\xa0", false),
    (b"\xed\x9f\xbf", true),
    (b"\xed\xa0\x80", false),
    (b"\xed\xbf\xbf", false),
    (b"\xee\x80\x80", true),
    (b"\xef\xbf\xbf", true),
    (b"\xf0\x8f\xbf\xbf", false),
    (b"\xf0\x90\x80\x80", true),
    (b"\xf0\x90\x80", false),
    (b"\xf4\x8f\xbf\xbf", true),
    (b"\xf4\x90\x80\x80", false),
    (b"\xf5\x80\x80\x80", false),
    (b"\xf7\xbf\xbf\xbf", false),
    (b"\xf8\x88\x80\x80\x80", false),
    (b"\xfc\x84\x80\x80\x80\x80", false),
    (b"\xfe", false),
    (b"\xff", false),
    (b"\xe2\x89\x41", false),
    (b"\x41\x80", false),
    (b"\xf0\x9f\x98\x80\xc3", false),
];

pub fn run(group: &mut Group) {
    for (text, characters) in WELL_FORMED {
        let case = format!("{text:02x?}");
        let fits = group.answer(&term(text, characters));
        let typed = Answer::Lines(b"07000001\n0900000000\n".to_vec());
        group.same(&case, fits.answer, typed);
        let too_long = group.answer(&term(text, characters - 1));
        group.same(&case, too_long.codes, vec!["reject/fuzzy-term"]);
    }
    for text in ILL_FORMED {
        group.refused(&format!("{text:02x?}"), &term(text, 32), 7);
    }
    for text in HALVES {
        group.refused(&format!("{text:02x?}"), &term(text, 32), 7);
    }
    for (text, passes) in BOUNDARIES {
        let case = format!("{text:02x?}");
        if passes {
            group.read(&case, &term(text, 32));
        } else {
            group.refused(&case, &term(text, 32), 7);
        }
    }
    all_short(group);
}

/// Every text of up to two bytes, and every one of three and four bytes that stand at a boundary:
/// the reader passes what the grammar of RFC 3629 passes, read here value by value.
fn all_short(group: &mut Group) {
    let mut differing = vec![];
    let mut number = 0;
    let mut hold = |text: &[u8]| {
        number += 1;
        let found = judge::read(&term(text, 32), &Limits::default()).err();
        let expected = (!passes(text)).then_some(7);
        if found != expected && differing.len() < 10 {
            differing.push((text.to_vec(), found));
        }
    };
    for first in 0..=255 {
        hold(&[first]);
        for second in 0..=255 {
            hold(&[first, second]);
        }
    }
    for a in BYTES {
        for b in BYTES {
            for c in BYTES {
                hold(&[a, b, c]);
                for d in BYTES {
                    hold(&[a, b, c, d]);
                }
            }
        }
    }
    group.same(&format!("{number} short texts"), differing, vec![]);
}

const BYTES: [u8; 26] = [
    0x00, 0x7f, 0x80, 0x8f, 0x90, 0x9f, 0xa0, 0xbf, 0xc0, 0xc1, 0xc2, 0xdf, 0xe0, 0xe1, 0xec, 0xed,
    0xee, 0xef, 0xf0, 0xf1, 0xf3, 0xf4, 0xf5, 0xf7, 0xf8, 0xff,
];

/// The rule by values: the length by the first byte's leading ones, later bytes 80 to bf, and a value that
/// needs that length, is at most 10ffff and no half of a UTF-16 pair.
fn passes(text: &[u8]) -> bool {
    let mut rest = text;
    while let [first, after @ ..] = rest {
        let length = match first.leading_ones() {
            0 => 1,
            ones @ 2..=4 => ones as usize,
            _ => return false,
        };
        let Some((later, next)) = after.split_at_checked(length - 1) else {
            return false;
        };
        if !later.iter().all(|byte| byte & 0xc0 == 0x80) {
            return false;
        }
        let start = u32::from(first & (0xff_u16 >> (length + usize::from(length > 1))) as u8);
        let value = later
            .iter()
            .fold(start, |value, byte| value << 6 | u32::from(byte & 0x3f));
        let least = [0, 0x80, 0x800, 0x1_0000][length - 1];
        if !(least..=0x10_ffff).contains(&value) || (0xd800..=0xdfff).contains(&value) {
            return false;
        }
        rest = next;
    }
    true
}

/// A file whose one node is a fuzzy pattern of that term, so that its characters are counted.
fn term(text: &[u8], max_term: u16) -> Vec<u8> {
    judge::encode(&File {
        max_distance: 1,
        max_term,
        names: vec![text.to_vec()],
        types: vec![],
        predicates: vec![],
        trees: vec![Tree {
            nodes: vec![Node {
                start: 0,
                end: 0,
                shape: Shape::Fuzzy(0, 1),
            }],
            query: Query {
                head: 0,
                body: vec![],
            },
        }],
    })
}
