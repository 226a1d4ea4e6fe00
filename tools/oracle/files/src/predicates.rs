//! Predicate numbers of 32 bits: look-alikes of a number that exists, and files that are full of them.

use crate::draft::{self, Draft, Expr, Shape, Stmt};
use crate::rng::Rng;
use crate::{messages, valid};

/// Where a frame holds a predicate's number.
pub fn place(frame: &[u8]) -> Option<usize> {
    let at = match (frame.first()?, frame.get(1), frame.get(9)) {
        (3, Some(3), _) => 2,
        (5, _, Some(0x0d)) => 10,
        _ => return None,
    };
    (at + 4 <= frame.len()).then_some(at)
}

/// Upper halves; the lower one is left, so that the number looks like one that exists.
const UPPER: [u16; 8] = [1, 1, 2, 0x0080, 0x0100, 0x7fff, 0x8000, 0xffff];

/// A query whose facts are partly of a predicate's look-alike, which is another one and absent: in types, in
/// nodes, or in both, so that like meets like and unlike too.
pub fn look_alikes(rng: &mut Rng) -> Vec<u8> {
    let draft = match rng.below(8) {
        0 => valid::grown(rng),
        1 => valid::misfits(rng),
        2 => valid::poison(rng),
        3 => valid::alike(rng),
        4 => valid::accesses(rng),
        5 => messages::messages(rng),
        6 => messages::no_order(rng),
        _ => facts(rng),
    };
    let mut frames = draft.frames();
    let upper = rng.pick(&UPPER);
    let kinds = rng.pick(&[&[3][..], &[5], &[3, 5]]);
    let share = rng.pick(&[10, 40, 100]);
    for frame in &mut frames {
        if let Some(at) = place(frame)
            && kinds.contains(&frame[0])
            && rng.chance(share)
        {
            frame[at..at + 2].copy_from_slice(&upper.to_be_bytes());
        }
    }
    draft::lines(&frames)
}

/// Numbers at the edges of 16 and 32 bits, and the first ones.
const NUMBERS: [u32; 12] = [
    0,
    1,
    2,
    127,
    0x7fff,
    0xffff,
    0x1_0000,
    0x1_0001,
    0x1_ffff,
    0x8000_0000,
    0xffff_0000,
    u32::MAX,
];

/// Facts held against each other, as variables, as keys, in records, and by their order.
fn facts(rng: &mut Rng) -> Draft {
    let mut draft = Draft::new();
    for word in ["a", "x", "y", "value"] {
        draft.name(word);
    }
    draft.ty(Shape::Int);
    let of: Vec<u32> = (0..rng.between(1, 3)).map(|_| rng.pick(&NUMBERS)).collect();
    for number in &of {
        draft.ty(Shape::Fact(*number));
    }
    let record = draft.ty(Shape::Record(vec![(0, 1)]));
    for _ in 0..rng.between(1, 3) {
        let key = rng.below(record as usize + 1) as u16;
        let value = rng
            .chance(50)
            .then(|| rng.below(record as usize + 1) as u16);
        draft.predicate(0, key, value);
    }
    let fact = |rng: &mut Rng, draft: &mut Draft| {
        let number = if rng.chance(50) {
            rng.pick(&of)
        } else {
            rng.pick(&NUMBERS)
        };
        let key = match rng.below(4) {
            0 => draft.var(1),
            1 => {
                let inner = draft.node(Expr::Wildcard);
                draft.node(Expr::Fact(rng.pick(&NUMBERS), inner))
            }
            _ => draft.node(Expr::Wildcard),
        };
        draft.node(Expr::Fact(number, key))
    };
    for _ in 0..rng.between(1, 6) {
        let right = fact(rng, &mut draft);
        let stmt = match rng.below(7) {
            0..3 => {
                let left = draft.var(1 + rng.below(2) as u16);
                Stmt::Bind(left, right)
            }
            3 => {
                let left = draft.var(1);
                let right = draft.node(Expr::Record(vec![(0, right)]));
                Stmt::Compare(left, right)
            }
            4 => Stmt::Implicit(draft.node(Expr::Value(right))),
            5 => Stmt::Implicit(draft.node(Expr::Key(0, right))),
            _ => {
                let other = fact(rng, &mut draft);
                Stmt::Implicit(draft.node(Expr::Disjunction(vec![right, other])))
            }
        };
        draft.body.push(stmt);
    }
    draft.head = draft.var(1 + rng.below(2) as u16);
    draft
}

/// A form full of facts around 65,536 bytes, as it is or in the edition that has two bytes for a predicate's
/// number; a line of a name makes up the rest.
pub fn many_facts(rng: &mut Rng) -> Vec<u8> {
    let size = 65_535 + rng.below(3);
    // Of a fact's node the line has 33 characters here and 29 there.
    let (line, there) = if rng.chance(50) {
        (33, false)
    } else {
        (29, true)
    };
    let mut draft = Draft::new();
    draft.ty(Shape::Int);
    let key = draft.ty(Shape::Fact(rng.pick(&[0, 1, 0xffff])));
    draft.predicate(0, key, None);
    // The name is there from the first, so that the frames' lengths are known.
    draft.names.push(vec![]);
    let query = 2 * line + 2 * 21 + 8;
    let least = lines_of(&draft, there) + 200;
    let mut left = size - least;
    while left > query {
        let facts = rng.between(1, 250).min((left - 8) / (line + 21));
        if facts == 0 {
            break;
        }
        for _ in 0..facts {
            let key = draft.node(Expr::Wildcard);
            let fact = draft.node(Expr::Fact(rng.pick(&[0, 0, 1, 0xffff]), key));
            draft.head = fact;
        }
        draft.close();
        left -= facts * (line + 21) + 7;
    }
    let have = lines_of(&draft, there);
    let rest = size.saturating_sub(have);
    if draft.closed.is_empty() || rest % 2 == 1 {
        // An odd rest: another name's line has an odd length.
        draft.names.push(b"b".to_vec());
    }
    let rest = size.saturating_sub(lines_of(&draft, there));
    draft.names[0] = vec![b'a'; (rest / 2).min(511)];
    let mut bytes = draft::lines(&draft.form_frames());
    if rng.chance(10) {
        // The one number above 65,535 stands on one of the last lines, or all are.
        let mut frames = draft.form_frames();
        let at = frames.iter().rposition(|frame| place(frame).is_some());
        if let Some(at) = at {
            let place = place(&frames[at]).expect("just found");
            frames[at][place + 1] = 1;
        }
        bytes = draft::lines(&frames);
    }
    bytes
}

/// The characters of the closed queries and the schema, here or in the edition of two bytes.
fn lines_of(draft: &Draft, there: bool) -> usize {
    let frames = draft.form_frames();
    let less = frames.iter().filter(|frame| place(frame).is_some()).count();
    draft::lines(&frames).len() - if there { 4 * less } else { 0 }
}

/// Any file as the edition of two bytes would have it: the upper half of each predicate number is cut out.
/// Lines that are broken stay as they are.
pub fn narrowed(file: &[u8]) -> Vec<u8> {
    let mut text = Vec::with_capacity(file.len());
    for line in file.split_inclusive(|byte| *byte == b'\n') {
        let digits = line.strip_suffix(b"\n").unwrap_or(line);
        let at = match digits.get(..4) {
            Some(b"0303") => 4,
            Some([b'0', b'5', ..]) if digits.get(18..20) == Some(b"0d") => 20,
            _ => digits.len(),
        };
        if at + 4 <= digits.len() {
            text.extend_from_slice(&line[..at]);
            text.extend_from_slice(&line[at + 4..]);
        } else {
            text.extend_from_slice(line);
        }
    }
    text
}
