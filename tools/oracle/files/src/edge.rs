//! Queries that spend their last visits on something telling: whoever counts that
//! otherwise ends on the other side of the limit.

use crate::draft::{Draft, Expr, Shape, Stmt};
use crate::limits::{MOST_VISITS, spend};
use crate::rng::Rng;
use crate::valid;

pub fn edge(rng: &mut Rng) -> Vec<u8> {
    let (mut draft, least, most) = match rng.below(10) {
        0 => (valid::unknowns(rng), 0, 60),
        1 => (valid::records(rng), 0, 20),
        2 => (valid::rollbacks(rng), 0, 60),
        3 => (valid::grown(rng), 0, 20),
        4 => (valid::alike(rng), 0, 20),
        _ => stopping(rng),
    };
    let left = rng.between(least, most);
    let body = std::mem::take(&mut draft.body);
    spend(rng, &mut draft, MOST_VISITS - left as u64, true);
    draft.body.extend(body);
    draft.bytes()
}

/// Walks that stop early, with much behind the stop; and how many visits it has made by
/// then, at least and at most.
fn stopping(rng: &mut Rng) -> (Draft, usize, usize) {
    let mut draft = Draft::new();
    for word in ["a", "x", "y", "b"] {
        draft.name(word);
    }
    draft.ty(Shape::Int);
    draft.ty(Shape::Str);
    let width = rng.between(20, 60);
    let before = match rng.below(5) {
        0 => {
            // The unknown stands before, in the midst of, or behind the rest.
            let at = rng.below(width);
            let record = row(&mut draft, width, at, Expr::Var(1));
            let left = draft.var(1);
            draft.bind(left, record);
            2
        }
        1 => {
            draft.predicate(0, 0, None);
            let key = draft.node(Expr::Wildcard);
            let at = rng.below(width);
            let record = row(&mut draft, width, at, Expr::Fact(0, key));
            let left = draft.var(1);
            draft.body.push(Stmt::Compare(left, record));
            width + 3
        }
        2 => {
            // Unknowns bound to unknowns, two visits for each.
            let names: Vec<u16> = (0..=width).map(|n| draft.name(&format!("{n}"))).collect();
            names
                .windows(2)
                .for_each(|two| draft.equate(two[0], two[1]));
            width
        }
        _ => {
            unions(rng, &mut draft, width);
            2 * width + 4
        }
    };
    draft.head = draft.node(Expr::Int);
    (draft, before, before + width + 2)
}

/// A record of literals with something else at one place.
fn row(draft: &mut Draft, width: usize, at: usize, other: Expr) -> u16 {
    let mut other = Some(other);
    let parts = (0..width)
        .map(|place| {
            let expr = other.take_if(|_| place == at).unwrap_or(Expr::Int);
            (0, draft.node(expr))
        })
        .collect();
    draft.node(Expr::Record(parts))
}

/// Two unions that differ in one of many alternatives, declared in different orders.
fn unions(rng: &mut Rng, draft: &mut Draft, width: usize) {
    let high = rng.below(width);
    let mut alternatives: Vec<(u16, u32, u16)> = (0..width)
        .map(|n| (0, n as u32 | if n >= high { 0x8000_0000 } else { 0 }, 0))
        .collect();
    rng.shuffle(&mut alternatives);
    let first = draft.ty(Shape::Union(alternatives.clone()));
    rng.shuffle(&mut alternatives);
    let at = rng.below(width);
    match rng.below(4) {
        0 => alternatives[at].0 = 3,
        1 => alternatives[at].2 = 1,
        2 => alternatives[at].1 ^= 0x4000_0000,
        _ => drop(alternatives.remove(at)),
    }
    let second = draft.ty(Shape::Union(alternatives));
    for (place, ty) in [(0, first), (1, second)] {
        let predicate = draft.predicate(0, ty, None);
        let key = draft.var(1 + place);
        let fact = draft.node(Expr::Fact(predicate, key));
        draft.body.push(Stmt::Implicit(fact));
    }
    draft.equate(1, 2);
}
