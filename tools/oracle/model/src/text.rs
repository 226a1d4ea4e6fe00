//! The text rule, as the ranges of RFC 3629's grammar.

use crate::mutation::{Switch, Wrong};

/// First bytes from, to; the length; second bytes from, to. Later ones are 80 to bf.
struct Row(u8, u8, usize, u8, u8);

const ROWS: [Row; 9] = [
    Row(0x00, 0x7f, 1, 0, 0),
    Row(0xc2, 0xdf, 2, 0x80, 0xbf),
    Row(0xe0, 0xe0, 3, 0xa0, 0xbf),
    Row(0xe1, 0xec, 3, 0x80, 0xbf),
    Row(0xed, 0xed, 3, 0x80, 0x9f),
    Row(0xee, 0xef, 3, 0x80, 0xbf),
    Row(0xf0, 0xf0, 4, 0x90, 0xbf),
    Row(0xf1, 0xf3, 4, 0x80, 0xbf),
    Row(0xf4, 0xf4, 4, 0x80, 0x8f),
];

/// Rows that a mistake would add in front.
fn extra(wrong: Switch) -> Option<Row> {
    Some(match () {
        _ if wrong.on(Wrong::OverlongTwo) => Row(0xc0, 0xc1, 2, 0x80, 0xbf),
        _ if wrong.on(Wrong::OverlongThree) => Row(0xe0, 0xe0, 3, 0x80, 0xbf),
        _ if wrong.on(Wrong::OverlongFour) => Row(0xf0, 0xf0, 4, 0x80, 0xbf),
        _ if wrong.on(Wrong::AboveTenFfff) => Row(0xf4, 0xf4, 4, 0x80, 0xbf),
        _ if wrong.on(Wrong::FirstF5) => Row(0xf5, 0xf7, 4, 0x80, 0xbf),
        _ if wrong.on(Wrong::FirstF8) => Row(0xf8, 0xff, 1, 0, 0),
        _ if wrong.on(Wrong::StrayContinuation) => Row(0x80, 0xbf, 1, 0, 0),
        _ if wrong.on(Wrong::SurrogatesPass) => Row(0xed, 0xed, 3, 0x80, 0xbf),
        _ if wrong.on(Wrong::HighHalvesPass) => Row(0xed, 0xed, 3, 0x80, 0xaf),
        _ if wrong.on(Wrong::EdRefused) => Row(0xed, 0xed, 3, 0x80, 0x7f),
        _ if wrong.on(Wrong::PairsOnlyRefused) || wrong.on(Wrong::PairsPass) => {
            Row(0xed, 0xed, 3, 0x80, 0xbf)
        }
        _ if wrong.on(Wrong::SevenIsOverlong) => Row(0x7f, 0x7f, 2, 0x80, 0xbf),
        _ => return None,
    })
}

/// The number of characters, or nothing where the bytes break the rule.
pub fn characters(text: &[u8], wrong: Switch) -> Option<usize> {
    let halves = halves(text);
    if wrong.on(Wrong::PairsOnlyRefused) && halves.pairs > 0 {
        return None;
    }
    if wrong.on(Wrong::PairsPass) {
        // Each pair passes as the one character it stands for; a half alone does not.
        if halves.alone > 0 {
            return None;
        }
        return runs(text, wrong).map(|count| count - halves.pairs);
    }
    runs(text, wrong)
}

/// Halves of UTF-16 pairs, as three bytes each: those with their other half, and the others.
struct Halves {
    pairs: usize,
    alone: usize,
}

fn halves(text: &[u8]) -> Halves {
    let mut found = Halves { pairs: 0, alone: 0 };
    let half = |at: usize, from: u8, to: u8| {
        text.get(at) == Some(&0xed)
            && text
                .get(at + 1)
                .is_some_and(|byte| (from..=to).contains(byte))
    };
    let mut at = 0;
    while at < text.len() {
        if half(at, 0xa0, 0xaf) && half(at + 3, 0xb0, 0xbf) {
            found.pairs += 1;
            at += 6;
        } else {
            found.alone += usize::from(half(at, 0xa0, 0xbf));
            at += 1;
        }
    }
    found
}

fn runs(text: &[u8], wrong: Switch) -> Option<usize> {
    let added = extra(wrong);
    let mut count = 0;
    let mut at = 0;
    while at < text.len() {
        let first = text[at];
        let row = added
            .iter()
            .chain(&ROWS)
            .find(|row| (row.0..=row.1).contains(&first))?;
        for place in 1..row.2 {
            let Some(&byte) = text.get(at + place) else {
                if wrong.on(Wrong::TruncatedTail) {
                    break;
                }
                return None;
            };
            let range = match place {
                _ if wrong.on(Wrong::LaterUntested) => 0..=0xff,
                1 => row.3..=row.4,
                _ if wrong.on(Wrong::ThirdUntested) => 0..=0xff,
                _ => 0x80..=0xbf,
            };
            if !range.contains(&byte) {
                return None;
            }
        }
        at += row.2;
        count += match () {
            _ if wrong.on(Wrong::CountedByBytes) => row.2,
            _ if wrong.on(Wrong::CountedByUnits) => row.2.div_ceil(3),
            _ => 1,
        };
    }
    Some(count)
}
