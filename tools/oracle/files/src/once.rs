//! Names written once: entries that are found again or not, that leave with a query in brackets, and that a rollback
//! removes.

use crate::draft::{Draft, Expr, Shape, Stmt};
use crate::limits;
use crate::rng::Rng;

/// Five names, written here and there: in brackets, in fields that fit and fields that do not, on both sides of
/// statements.
pub fn once(rng: &mut Rng) -> Draft {
    let mut draft = Draft::new();
    for word in ["x", "y", "z", "v", "w", "f", "g", "p"] {
        draft.name(word);
    }
    draft.types.extend([Shape::Int, Shape::Str]);
    let inner = draft.ty(Shape::Record(vec![(5, 0), (6, 1)]));
    let key = draft.ty(Shape::Record(vec![(5, rng.below(3) as u16), (6, inner)]));
    draft.predicate(7, key, None);
    draft.predicate(7, rng.below(3) as u16, None);
    draft.body = body(rng, &mut draft, 3);
    draft.head = term(rng, &mut draft, 1);
    draft
}

fn body(rng: &mut Rng, draft: &mut Draft, depth: usize) -> Vec<Stmt> {
    (0..rng.between(1, 4))
        .map(|_| match rng.below(8) {
            0 => Stmt::Bind(variable(rng, draft), term(rng, draft, depth)),
            1 => Stmt::Compare(term(rng, draft, depth), term(rng, draft, 0)),
            2 => Stmt::Deny(variable(rng, draft), term(rng, draft, depth)),
            3 => Stmt::Negation(fact(rng, draft, depth)),
            4 => Stmt::Implicit(term(rng, draft, depth)),
            _ => Stmt::Implicit(fact(rng, draft, depth)),
        })
        .collect()
}

fn variable(rng: &mut Rng, draft: &mut Draft) -> u16 {
    draft.var(rng.below(5) as u16)
}

fn fact(rng: &mut Rng, draft: &mut Draft, depth: usize) -> u16 {
    let key = match rng.below(4) {
        0 => term(rng, draft, depth),
        _ => record(rng, draft, depth),
    };
    draft.node(Expr::Fact(rng.below(2) as u32, key))
}

fn record(rng: &mut Rng, draft: &mut Draft, depth: usize) -> u16 {
    let below = depth.saturating_sub(1);
    let parts = (0..rng.between(1, 2))
        .map(|_| (5 + rng.below(2) as u16, term(rng, draft, below)))
        .collect();
    draft.node(Expr::Record(parts))
}

fn term(rng: &mut Rng, draft: &mut Draft, depth: usize) -> u16 {
    match rng.below(if depth == 0 { 6 } else { 11 }) {
        0..4 => variable(rng, draft),
        4 => draft.node(Expr::Int),
        5 => draft.node(Expr::Str),
        6 => record(rng, draft, depth),
        7 => fact(rng, draft, depth - 1),
        _ => {
            let body = body(rng, draft, depth - 1);
            let head = term(rng, draft, 0);
            draft.node(Expr::Subquery(head, body))
        }
    }
}

/// As many entries as the nodes let leave, out of brackets and at the end; some are found again.
pub fn once_most(rng: &mut Rng) -> Vec<u8> {
    let mut draft = Draft::new();
    let names: Vec<u16> = (0..160).map(|n| draft.name(&format!("{n}"))).collect();
    let again = rng.pick(&[0, 0, 1, 20, 50]);
    let most = rng.between(500, 510);
    let mut body = vec![];
    while draft.nodes.len() < most {
        let scope = rng.between(1, names.len()).min(most - draft.nodes.len());
        let mut order = names.clone();
        rng.shuffle(&mut order);
        for at in 0..scope {
            let name = if at > 0 && rng.chance(again) {
                order[rng.below(at)]
            } else {
                order[at]
            };
            body.push(Stmt::Implicit(draft.var(name)));
        }
        if draft.nodes.len() + 3 < most {
            let body = std::mem::take(&mut body);
            let head = draft.node(Expr::Int);
            let inner = draft.node(Expr::Subquery(head, body));
            draft.body.push(Stmt::Implicit(inner));
        }
    }
    draft.body.append(&mut body);
    draft.body.truncate(165);
    draft.head = draft.node(Expr::Int);
    draft.bytes()
}

/// An answer around 65,536 bytes whose last lines but the visits are of names written once.
pub fn once_last(rng: &mut Rng) -> Vec<u8> {
    let lines = rng.between(1, 60);
    // A variable's node line has 13 characters, its line 0c has 19.
    let size = 65_535 + rng.below(3) - limits::VISITS_LINE - lines * (13 + 19);
    let mut draft = Draft::new();
    limits::answer_over(&mut draft, size);
    for name in 0..lines {
        let node = draft.var(name as u16);
        draft.body.push(Stmt::Implicit(node));
    }
    draft.bytes()
}
