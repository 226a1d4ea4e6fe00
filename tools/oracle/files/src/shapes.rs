//! Files of one shape each, for questions of time: where types are wide, deep or long chains, and where
//! messages are many or long.

use crate::draft::{Draft, Expr, Shape, Stmt};
use crate::filled::filled;
use crate::forms;
use crate::rng::Rng;

/// The shapes, each with its name.
pub fn shapes() -> Vec<(String, Vec<u8>)> {
    let mut all = vec![("M".to_owned(), smallest())];
    for width in [32, 63] {
        all.push((format!("unions-{width}"), unions(width, 1, 50, false)));
    }
    all.push(("unions-63-reversed".to_owned(), unions(63, 1, 50, true)));
    all.push(("unions-63-in-63".to_owned(), unions(63, 2, 50, false)));
    all.push(("unions-63-three".to_owned(), unions(63, 3, 1, false)));
    all.push(("records-120".to_owned(), declared(120, 50, false)));
    all.push(("records-120-reversed".to_owned(), declared(120, 50, true)));
    all.push(("inferred-110".to_owned(), inferred(110, 80, false)));
    all.push(("inferred-110-reversed".to_owned(), inferred(110, 80, true)));
    for length in [50, 100, 200, 400] {
        all.push((format!("chain-{length}"), chain(length)));
    }
    all.push(("named-chain-50".to_owned(), named_chain(50)));
    all
}

/// Files of many messages and of long ones, each with its name.
pub fn speaking() -> Vec<(String, Vec<u8>)> {
    let mut all = vec![];
    for count in [10, 100, 500] {
        all.push((format!("diagnostics-{count}"), diagnostics(count)));
    }
    for levels in [6, 8, 10] {
        all.push((format!("declared-2^{levels}"), declared_doubling(levels)));
        all.push((format!("resolved-2^{levels}"), resolved_doubling(levels)));
    }
    for times in [1, 7] {
        all.push((format!("unions-63-differ-{times}"), differing(63, times)));
    }
    for times in [1, 10] {
        all.push((format!("record-120-found-{times}"), found(120, times)));
    }
    all
}

/// What is doubled, and each file with how many there are: a number of them, twice and four times as many.
pub fn doubling() -> Vec<(&'static str, Vec<(usize, Vec<u8>)>)> {
    type Make = fn(usize) -> Vec<u8>;
    let all: [(&str, usize, Make); 10] = [
        ("fields read", 7168, |n| full("fields", n)),
        ("alternatives read", 3584, |n| full("alternatives", n)),
        ("names", 256, |n| full("names", n)),
        ("nodes", 512, |n| full("literals", n)),
        ("unknowns", 248, |n| full("variables", n)),
        ("unknowns in a chain", 400, chain),
        ("fields compared", 120, |n| declared(n, 50, false)),
        ("alternatives compared", 60, |n| unions(n, 1, 50, false)),
        ("queries", 64, |n| form(n, 1)),
        ("messages", 500, diagnostics),
    ];
    all.map(|(what, most, make)| {
        let sizes = [most / 4, most / 2, most].map(|count| (count, make(count)));
        (what, sizes.to_vec())
    })
    .to_vec()
}

fn full(what: &str, count: usize) -> Vec<u8> {
    filled(what, count).expect("it is listed")
}

/// So many fields that a key does not have.
fn diagnostics(count: usize) -> Vec<u8> {
    let mut draft = Draft::new();
    let [a, f] = ["a", "f"].map(|name| draft.name(name));
    let int = draft.ty(Shape::Int);
    let key = draft.ty(Shape::Record(vec![(a, int)]));
    let predicate = draft.predicate(a, key, None);
    let mut left = count;
    while left > 0 {
        let parts: Vec<_> = (0..left.min(125))
            .map(|_| (f, draft.node(Expr::Int)))
            .collect();
        left -= parts.len();
        let record = draft.node(Expr::Record(parts));
        let fact = draft.node(Expr::Fact(predicate, record));
        draft.body.push(Stmt::Implicit(fact));
    }
    draft.head = draft.node(Expr::Int);
    draft.bytes()
}

/// A literal in the place of a key that doubles: the message shows the key.
fn declared_doubling(levels: usize) -> Vec<u8> {
    let mut draft = Draft::new();
    let names = ["a", "b"].map(|name| draft.name(name));
    let mut ty = draft.ty(Shape::Int);
    for _ in 0..levels {
        ty = draft.ty(Shape::Record(names.map(|name| (name, ty)).to_vec()));
    }
    let predicate = draft.predicate(names[0], ty, None);
    let key = draft.node(Expr::Int);
    let fact = draft.node(Expr::Fact(predicate, key));
    draft.body.push(Stmt::Implicit(fact));
    draft.head = draft.node(Expr::Int);
    draft.bytes()
}

/// Unknowns that each stand for a record of the next one twice, the last for a fact: the first has no
/// order, and the message shows it resolved.
fn resolved_doubling(levels: usize) -> Vec<u8> {
    let mut draft = Draft::new();
    let fields = ["a", "b"].map(|name| draft.name(name));
    let names: Vec<u16> = (0..=levels).map(|n| draft.name(&format!("x{n}"))).collect();
    for pair in names.windows(2) {
        let left = draft.var(pair[0]);
        let parts = fields.map(|field| (field, draft.var(pair[1])));
        let right = draft.node(Expr::Record(parts.to_vec()));
        draft.bind(left, right);
    }
    let key = draft.node(Expr::Wildcard);
    let fact = draft.node(Expr::Fact(0, key));
    let left = draft.var(names[levels]);
    draft.bind(left, fact);
    let (left, right) = (draft.var(names[0]), draft.node(Expr::Error));
    draft.body.push(Stmt::Compare(left, right));
    hidden(draft)
}

/// Two unions that differ in the payload of their last alternative, shown so often.
fn differing(width: usize, times: usize) -> Vec<u8> {
    let mut draft = Draft::new();
    let name = draft.name("a");
    let scalars = [Shape::Int, Shape::Str].map(|shape| draft.ty(shape));
    let keys = scalars.map(|last| {
        let mut alternatives: Vec<_> = (0..width).map(|n| (name, n as u32, scalars[0])).collect();
        alternatives[width - 1].2 = last;
        draft.ty(Shape::Union(alternatives))
    });
    compared(draft, keys, times)
}

/// A declared record of so many fields where an integer is wanted, so often.
fn found(width: usize, times: usize) -> Vec<u8> {
    let mut draft = Draft::new();
    let fields: Vec<u16> = (0..width).map(|n| draft.name(&format!("f{n}"))).collect();
    let int = draft.ty(Shape::Int);
    let fields = fields.into_iter().map(|name| (name, int)).collect();
    let record = draft.ty(Shape::Record(fields));
    let predicate = draft.predicate(0, int, Some(record));
    for _ in 0..times {
        let key = draft.node(Expr::Wildcard);
        let fact = draft.node(Expr::Fact(predicate, key));
        let value = draft.node(Expr::Value(fact));
        let sum = draft.node(Expr::Arith(vec![value]));
        draft.body.push(Stmt::Implicit(sum));
    }
    hidden(draft)
}

/// A form of so many queries that mean something, over one schema; the same for the same numbers.
pub fn form(queries: usize, seed: u64) -> Vec<u8> {
    forms::grown(&mut Rng::new(seed), queries)
}

fn smallest() -> Vec<u8> {
    let mut draft = Draft::new();
    draft.head = draft.node(Expr::Int);
    draft.bytes()
}

/// Two predicates whose keys are these types, a variable for each key, and the variables made equal so
/// often.
fn compared(mut draft: Draft, keys: [u16; 2], times: usize) -> Vec<u8> {
    let names = [draft.name("x"), draft.name("y")];
    for (key, name) in keys.into_iter().zip(names) {
        let predicate = draft.predicate(name, key, None);
        let node = draft.var(name);
        let fact = draft.node(Expr::Fact(predicate, node));
        draft.body.push(Stmt::Implicit(fact));
    }
    for _ in 0..times {
        draft.equate(names[0], names[1]);
    }
    hidden(draft)
}

/// The query under a fact that it does not fit: all is rolled back and the answer stays short.
fn hidden(mut draft: Draft) -> Vec<u8> {
    let int = draft.ty(Shape::Int);
    let predicate = draft.predicate(0, int, None);
    let head = draft.node(Expr::Str);
    let body = std::mem::take(&mut draft.body);
    let subquery = draft.node(Expr::Subquery(head, body));
    let fact = draft.node(Expr::Fact(predicate, subquery));
    draft.body.push(Stmt::Implicit(fact));
    draft.head = draft.node(Expr::Int);
    draft.bytes()
}

/// Two unions of so many alternatives, in so many levels of each other.
fn unions(width: usize, levels: usize, times: usize, reversed: bool) -> Vec<u8> {
    let mut draft = Draft::new();
    let name = draft.name("a");
    let int = draft.ty(Shape::Int);
    let keys = [false, reversed].map(|reversed| {
        let mut ty = int;
        for _ in 0..levels {
            let mut alternatives: Vec<_> = (0..width).map(|n| (name, n as u32, ty)).collect();
            if reversed {
                alternatives.reverse();
            }
            ty = draft.ty(Shape::Union(alternatives));
        }
        ty
    });
    compared(draft, keys, times)
}

/// Two declared records of so many fields.
fn declared(width: usize, times: usize, reversed: bool) -> Vec<u8> {
    let mut draft = Draft::new();
    let names: Vec<u16> = (0..width).map(|n| draft.name(&format!("f{n}"))).collect();
    let int = draft.ty(Shape::Int);
    let keys = [false, reversed].map(|reversed| {
        let mut fields: Vec<_> = names.iter().map(|name| (*name, int)).collect();
        if reversed {
            fields.reverse();
        }
        draft.ty(Shape::Record(fields))
    });
    compared(draft, keys, times)
}

/// Two variables bound to records of so many literals, and made equal so often.
fn inferred(width: usize, times: usize, reversed: bool) -> Vec<u8> {
    let mut draft = Draft::new();
    let sides = [draft.name("x"), draft.name("y")];
    let names: Vec<u16> = (0..width).map(|n| draft.name(&format!("f{n}"))).collect();
    for (side, reversed) in sides.into_iter().zip([false, reversed]) {
        let mut parts: Vec<_> = names
            .iter()
            .map(|name| (*name, draft.node(Expr::Int)))
            .collect();
        if reversed {
            parts.reverse();
        }
        let left = draft.var(side);
        let right = draft.node(Expr::Record(parts));
        draft.bind(left, right);
    }
    for _ in 0..times {
        draft.equate(sides[0], sides[1]);
    }
    hidden(draft)
}

/// `y = ((..x..))`: choices of one branch around a variable, each an unknown that the inner one is bound
/// to; then the variable is followed again and again.
fn chain(length: usize) -> Vec<u8> {
    let mut draft = Draft::new();
    let [x, y] = ["x", "y"].map(|name| draft.name(name));
    let left = draft.var(y);
    let mut at = draft.var(x);
    for _ in 0..length {
        at = draft.node(Expr::Disjunction(vec![at]));
    }
    draft.bind(left, at);
    for _ in 0..50 {
        draft.equate(x, y);
    }
    draft.head = draft.var(x);
    draft.bytes()
}

/// `v1 = v0`, `v2 = v1` and so on, and the first followed again and again.
fn named_chain(length: usize) -> Vec<u8> {
    let mut draft = Draft::new();
    let names: Vec<u16> = (0..=length).map(|n| draft.name(&format!("v{n}"))).collect();
    for pair in names.windows(2) {
        draft.equate(pair[1], pair[0]);
    }
    for _ in 0..40 {
        draft.equate(names[length], names[0]);
    }
    draft.head = draft.var(names[0]);
    draft.bytes()
}

#[cfg(test)]
mod tests {
    use super::*;

    #[test]
    fn all_fit_in_a_file() {
        for (name, file) in shapes().into_iter().chain(speaking()) {
            assert!(file.len() <= 65_536, "{name}: {}", file.len());
        }
        for (what, sizes) in doubling() {
            for (count, file) in sizes {
                assert!(file.len() <= 65_536, "{what} {count}: {}", file.len());
            }
        }
        for queries in [1, 30, 64] {
            assert!(form(queries, 1).len() <= 65_536);
        }
    }
}
