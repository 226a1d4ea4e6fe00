//! Names at each boundary of the text rule.

use crate::draft::{self, Expr, Stmt};
use crate::rng::Rng;

/// RFC 3629's examples, then the first and last of each length and their neighbours.
const SOUND: &[&[u8]] = &[
    b"A\xe2\x89\xa2\xce\x91.",
    b"\xed\x95\x9c\xea\xb5\xad\xec\x96\xb4",
    b"\xe6\x97\xa5\xe6\x9c\xac\xe8\xaa\x9e",
    b"\xef\xbb\xbf\xf0\xa3\x8e\xb4",
    b"\x00",
    b"\x7f",
    b"\xc2\x80",
    b"\xdf\xbf",
    b"\xe0\xa0\x80",
    b"\xe0\xbf\xbf",
    b"\xe1\x80\x80",
    b"\xec\xbf\xbf",
    b"\xed\x80\x80",
    b"\xed\x9f\xbf",
    b"\xee\x80\x80",
    b"\xef\xbf\xbf",
    b"\xf0\x90\x80\x80",
    b"\xf0\xbf\xbf\xbf",
    b"\xf1\x80\x80\x80",
    b"\xf3\xbf\xbf\xbf",
    b"\xf4\x80\x80\x80",
    b"\xf4\x8f\xbf\xbf",
];

/// Values d800 to dfff: halves of UTF-16 pairs, alone and as pairs, and what stands beside them.
const HALVES: &[&[u8]] = &[
    b"\xed\x9f\xbf",
    b"\xee\x80\x80",
    b"\xed\xa0\x80",
    b"\xed\xad\xbf",
    b"\xed\xae\x80",
    b"\xed\xaf\xbf",
    b"\xed\xb0\x80",
    b"\xed\xbf\xbf",
    b"\xed\xa1\x8c\xed\xbe\xb4",
    b"\xed\xa0\xbd\xed\xb8\x80",
    b"\xed\xb8\x80\xed\xa0\xbd",
    b"\xed\x9f\xbf\xed\xb8\x80",
    b"\xed\xa0\xbd\xee\x80\x80",
];

const BROKEN: &[&[u8]] = &[
    b"\x80",
    b"\xbf",
    b"\xc0\x80",
    b"\xc0\xae",
    b"\xc1\xbf",
    b"\xc2",
    b"\xc2\x7f",
    b"\xc2\xc0",
    b"\xdf\xbf\xbf",
    b"\xe0\x80\x80",
    b"\xe0\x9f\xbf",
    b"\xe0\xa0",
    b"\xe1\x80",
    b"\xe1\x80\x7f",
    b"\xe1\x80\xc0",
    b"\xe1\x7f\x80",
    b"\xed\xa0",
    b"\xef\xbf",
    b"\xf0\x80\x80\x80",
    b"\xf0\x8f\xbf\xbf",
    b"\xf0\x90\x80",
    b"\xf0\x90\x80\x7f",
    b"\xf0\x90\xc0\x80",
    b"\xf1\x80\x80",
    b"\xf4\x90\x80\x80",
    b"\xf4\xbf\xbf\xbf",
    b"\xf5\x80\x80\x80",
    b"\xf7\xbf\xbf\xbf",
    b"\xf8\x88\x80\x80\x80",
    b"\xfb\xbf\xbf\xbf\xbf",
    b"\xfc\x84\x80\x80\x80\x80",
    b"\xfe",
    b"\xff",
    b"\xff\xff",
    b"\xfe\xff\x00\x41",
];

pub fn texts(rng: &mut Rng) -> Vec<u8> {
    let term = rng.below(5) as u16;
    let mut frames = vec![draft::limits(2, term)];
    let count = rng.between(1, 5);
    for _ in 0..count {
        frames.push(draft::name(&text(rng)));
    }
    let mut body = Vec::new();
    for name in 0..count as u16 {
        let node = if rng.chance(80) {
            Expr::Fuzzy(name, 1)
        } else {
            Expr::Var(name)
        };
        frames.push(draft::node(name.into(), 9, &node));
        body.push(Stmt::Implicit(name));
    }
    frames.push(draft::node(0, 1, &Expr::Int));
    // Without its query a file is refused whatever its names say, past them.
    if rng.chance(80) {
        frames.push(draft::query(count as u16, &body));
    }
    draft::lines(&frames)
}

fn text(rng: &mut Rng) -> Vec<u8> {
    if rng.chance(10) {
        return (0..rng.below(6)).map(|_| rng.byte()).collect();
    }
    let mut text = Vec::new();
    for _ in 0..rng.weighted(&[2, 40, 20, 5]) {
        match rng.weighted(&[72, 12, 11, 5]) {
            0 => text.extend(rng.pick(SOUND)),
            1 => text.extend(rng.pick(HALVES)),
            2 => text.extend(rng.pick(BROKEN)),
            _ => text.push(rng.pick(b"aA~\x7f\x80")),
        }
    }
    if rng.chance(8) {
        let at = rng.below(text.len());
        text.truncate(at);
    }
    if rng.chance(5) && !text.is_empty() {
        let at = rng.below(text.len());
        text[at] = rng.pick(&[0x7f, 0x80, 0x8f, 0x90, 0x9f, 0xa0, 0xbf, 0xc0]);
    }
    text
}
