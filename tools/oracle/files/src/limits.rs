//! Files at, one below and one past each limit of document 01.

use crate::draft::{self, Draft, Expr, Shape, Stmt};
use crate::rng::Rng;

const MOST: [usize; 4] = [256, 256, 128, 512];

/// Names, types, predicates or nodes around their count; the last may be broken too.
pub fn counts(rng: &mut Rng) -> Vec<u8> {
    let kind = rng.below(4);
    let count = MOST[kind] + rng.below(3) - 1;
    let mut draft = Draft::new();
    draft.ty(Shape::Int);
    draft.name("a");
    draft.node(Expr::Int);
    let from = if kind == 2 { 0 } else { 1 };
    for n in from..count {
        match kind {
            0 => draft.name(&format!("{n}")),
            1 => draft.ty(match n % 3 {
                0 => Shape::Record(vec![(0, (n - 1) as u16)]),
                1 => Shape::Str,
                _ => Shape::Fact(0),
            }),
            2 => draft.predicate(0, 0, None) as u16,
            _ => draft.node(if n % 2 == 0 { Expr::Int } else { Expr::Var(0) }),
        };
    }
    draft.head = if rng.chance(50) {
        (draft.nodes.len() - 1) as u16
    } else {
        0
    };
    let mut frames = draft.frames();
    if rng.chance(50) {
        // The last frame of that kind gets a fault of its own.
        let last = frames.iter().rposition(|f| f[0] == kind as u8 + 2);
        if let Some(at) = last {
            frames[at] = match kind {
                0 => rng
                    .pick(&[b"\x02\xff".as_slice(), b"\x02a", b"\x02\xc3"])
                    .to_vec(),
                1 => rng
                    .pick(&[
                        b"\x03\x06".as_slice(),
                        b"\x03",
                        b"\x03\x04\x00\x00\xff\xff",
                        b"\x03\x04\x00\x00\x00\x00\x00\x00\x00\x00",
                    ])
                    .to_vec(),
                2 => rng
                    .pick(&[
                        b"\x04\x00\x00\x00\x00\x02".as_slice(),
                        b"\x04\x00\x00\xff\xff\x00",
                        b"\x04",
                    ])
                    .to_vec(),
                _ => rng
                    .pick(&[
                        b"\x05\x00\x00\x00\x00\x00\x00\x00\x00\x11".as_slice(),
                        b"\x05\x00\x00\x00\x00\x00\x00\x00\x00\x0a\xff\xff",
                        b"\x05\x00",
                    ])
                    .to_vec(),
            };
        }
    }
    draft::lines(&frames)
}

/// A line of each kind around 512 decoded bytes.
pub fn long_line(rng: &mut Rng) -> Vec<u8> {
    let length = 511 + rng.below(3);
    let mut draft = Draft::new();
    draft.name("a");
    draft.ty(Shape::Int);
    draft.ty(Shape::Str);
    match rng.below(7) {
        0 => {
            let wide = rng.chance(50);
            let mut text = vec![b'b'; length - 1];
            if wide {
                // A character of four bytes ends where the line does.
                let from = text.len() - 4;
                text[from..].copy_from_slice("\u{10ffff}".as_bytes());
            }
            draft.names.push(text);
            draft.term = rng.pick(&[507, 508, 509, 510, 511]);
            let node = draft.node(Expr::Fuzzy(1, 1));
            draft.body.push(Stmt::Implicit(node));
        }
        1 => {
            for n in 1..(length - 2) / 4 + 1 {
                draft.name(&format!("{n}"));
            }
            let fields = (0..(length - 2).div_ceil(4)).map(|n| (n as u16, n as u16 % 2));
            let fields = Shape::Record(fields.collect());
            draft.ty(fields);
        }
        2 => {
            let count = (length - 2).div_ceil(8);
            let alternatives = (0..count).map(|n| (0, n as u32, n as u16 % 2)).collect();
            draft.ty(Shape::Union(alternatives));
        }
        3 => {
            let count = (length - 9) / 2;
            let nodes: Vec<u16> = (0..count).map(|_| draft.node(Expr::Int)).collect();
            let node = draft.node(if rng.chance(50) {
                Expr::Disjunction(nodes)
            } else {
                Expr::Arith(nodes)
            });
            draft.body.push(Stmt::Implicit(node));
        }
        4 => {
            let count = (length - 10).div_ceil(4);
            let parts = (0..count).map(|_| (0, draft.node(Expr::Int))).collect();
            let node = draft.node(Expr::Record(parts));
            draft.body.push(Stmt::Implicit(node));
        }
        5 => {
            let head = draft.node(Expr::Int);
            let body = filled(&mut draft, length - 12);
            let node = draft.node(Expr::Subquery(head, body));
            draft.body.push(Stmt::Implicit(node));
        }
        _ => draft.body = filled(&mut draft, length - 3),
    }
    draft.head = draft.node(Expr::Int);
    draft.bytes()
}

/// Statements of that many bytes in all.
fn filled(draft: &mut Draft, bytes: usize) -> Vec<Stmt> {
    let mut body = Vec::new();
    let mut left = bytes;
    while left > 0 {
        let wide = !left.is_multiple_of(3) && left >= 5;
        let first = draft.node(Expr::Int);
        if wide {
            let second = draft.node(Expr::Int);
            body.push(Stmt::Compare(first, second));
            left -= 5;
        } else {
            body.push(Stmt::Implicit(first));
            left = left.saturating_sub(3);
        }
    }
    body
}

/// A file around 65,536 bytes; long names fill it.
pub fn long_file(rng: &mut Rng) -> Vec<u8> {
    let size = 65_535 + rng.below(3);
    if rng.chance(10) {
        return vec![rng.pick(b"0\nx"); size];
    }
    let mut draft = Draft::new();
    draft.head = draft.node(Expr::Int);
    let mut left = size - draft.bytes().len();
    // Each name's line has an odd length, so their number has the parity of the rest.
    let mut names = left.div_ceil(1025);
    names += (names + left) % 2;
    while names > 0 {
        let length = (left.div_ceil(names) | 1).min(1025);
        let mut text = vec![b'a' + names as u8 % 26; (length - 3) / 2];
        text[0] = names as u8 & 0x7f;
        draft.names.push(text);
        left -= length;
        names -= 1;
    }
    let mut bytes = draft.bytes();
    if rng.chance(20) {
        let at = rng.below(bytes.len());
        bytes[at] = b'G';
    }
    bytes
}

/// Exactly so many visits by doubling types: each step of the chain, and each block on
/// top of it, costs a power of two.
pub fn visits(rng: &mut Rng) -> Vec<u8> {
    let target = MOST_VISITS - 1 + rng.below(4) as u64;
    spent(rng, target)
}

/// The same with few visits, for runs with a lower limit.
pub fn few_visits(rng: &mut Rng) -> Vec<u8> {
    let target = 40 + rng.below(4_000) as u64;
    spent(rng, target)
}

pub const MOST_VISITS: u64 = 1_048_576;

fn spent(rng: &mut Rng, target: u64) -> Vec<u8> {
    let mut draft = Draft::new();
    let hidden = rng.chance(75);
    spend(rng, &mut draft, target, hidden);
    draft.head = draft.node(Expr::Int);
    draft.bytes()
}

/// Adds statements of that many visits. Under a fact that does not fit, all is rolled
/// back and the answer stays short.
pub fn spend(rng: &mut Rng, draft: &mut Draft, target: u64, hidden: bool) {
    draft.name("a");
    draft.name("b");
    let int = draft.ty(Shape::Int);
    let predicate = draft.predicate(0, int, None);
    let mut left = target - hidden as u64;
    if rng.chance(50) {
        spend_on_pairs(draft, &mut left);
    } else {
        spend_on_blocks(rng, draft, &mut left);
    }
    if hidden {
        let head = draft.node(Expr::Str);
        let body = std::mem::take(&mut draft.body);
        let subquery = draft.node(Expr::Subquery(head, body));
        let fact = draft.node(Expr::Fact(predicate, subquery));
        draft.body.push(Stmt::Implicit(fact));
    }
}

/// `x1 = {a = x0, b = x0}` and so on: step i costs 2^(i+2) visits.
fn chain(draft: &mut Draft, letter: &str, steps: u32) -> Vec<u16> {
    let fields = [draft.name("a"), draft.name("b")];
    let names: Vec<u16> = (0..=steps)
        .map(|step| draft.name(&format!("{letter}{step}")))
        .collect();
    for step in 0..steps as usize {
        let left = draft.var(names[step + 1]);
        let (a, b) = (draft.var(names[step]), draft.var(names[step]));
        let right = draft.node(Expr::Record(vec![(fields[0], a), (fields[1], b)]));
        draft.bind(left, right);
    }
    names
}

/// The longest chain that costs at most half of what is left.
fn steps(left: u64) -> u32 {
    (left / 2 + 4).ilog2().saturating_sub(2)
}

fn spend_on_blocks(rng: &mut Rng, draft: &mut Draft, left: &mut u64) {
    let steps = steps(*left);
    let names = chain(draft, "x", steps);
    *left -= (1 << (steps + 2)) - 4;
    while *left >= 2 {
        if rng.chance(50) {
            // The occurs check walks the whole type once.
            let step = steps.min(left.ilog2() - 1);
            let new = draft.name(&format!("y{}", draft.names.len()));
            draft.equate(new, names[step as usize]);
            *left -= 1 << (step + 1);
        } else {
            // Unification walks it, and the question for its order does.
            let step = steps.min((*left + 2).ilog2() - 2);
            let name = names[step as usize];
            let (l, r) = (draft.var(name), draft.var(name));
            draft.body.push(Stmt::Compare(l, r));
            *left -= (1 << (step + 2)) - 2;
        }
    }
    if *left == 1 {
        let name = draft.name("z");
        draft.equate(name, name);
    }
}

fn spend_on_pairs(draft: &mut Draft, left: &mut u64) {
    let steps = steps(*left / 2);
    let (xs, ys) = (chain(draft, "x", steps), chain(draft, "y", steps));
    draft.equate(xs[0], ys[0]);
    *left -= 2 * ((1 << (steps + 2)) - 4) + 2;
    while *left > 0 {
        let step = steps.min((*left + 1).ilog2() - 1);
        draft.equate(xs[step as usize], ys[step as usize]);
        *left -= (1 << (step + 1)) - 1;
    }
}

/// An answer around 65,536 bytes.
pub fn long_answer(rng: &mut Rng) -> Vec<u8> {
    let size = 65_535 + rng.below(3);
    answer_of(size).bytes()
}

/// The characters of the line that ends a query's.
pub const VISITS_LINE: usize = 11;

/// An answer of exactly that many bytes.
pub fn answer_of(size: usize) -> Draft {
    let mut draft = Draft::new();
    answer_over(&mut draft, size - VISITS_LINE);
    draft
}

/// Node lines of that many bytes, over a draft without a schema or one that was given it here: wide records
/// first (792 for a fact and its wildcard), then wildcards (13) and literals (9).
pub fn answer_over(draft: &mut Draft, size: usize) {
    const FIELDS: u16 = 127;
    for n in 0..FIELDS {
        draft.name(&format!("{n}"));
    }
    if draft.types.is_empty() {
        draft.ty(Shape::Int);
        let key = draft.ty(Shape::Record((0..FIELDS).map(|n| (n, 0)).collect()));
        draft.predicate(0, key, None);
    }
    let mut left = size - 9;
    while left >= 792 + 104 {
        let key = draft.node(Expr::Wildcard);
        let fact = draft.node(Expr::Fact(0, key));
        draft.body.push(Stmt::Implicit(fact));
        left -= 792;
    }
    while !left.is_multiple_of(9) && left >= 13 {
        let node = draft.node(Expr::Wildcard);
        draft.body.push(Stmt::Implicit(node));
        left -= 13;
    }
    for _ in 0..left / 9 {
        draft.node(Expr::Str);
    }
    draft.head = draft.node(Expr::Int);
}

/// Chains of doubled types, long enough for 11 or for an answer past any slice.
pub fn doubling(rng: &mut Rng) -> Vec<u8> {
    let mut draft = Draft::new();
    draft.name("a");
    draft.name("b");
    let length = rng.pick(&[6, 8, 12, 14, 16, 17, 18, 24]);
    let names = chain(&mut draft, "x", length);
    if rng.chance(30) {
        let last = names[length as usize];
        let (left, right) = (draft.var(names[0]), draft.var(last));
        draft.bind(left, right);
    }
    draft.head = if rng.chance(50) {
        draft.var(names[length as usize])
    } else {
        draft.node(Expr::Int)
    };
    draft.bytes()
}

#[cfg(test)]
mod tests {
    use super::*;

    #[test]
    fn sizes_are_met() {
        for seed in 0..200 {
            let rng = &mut Rng::new(seed);
            let length = long_file(rng).len();
            assert!((65_535..=65_537).contains(&length), "{length}");
        }
    }
}
