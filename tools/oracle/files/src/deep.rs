//! The deepest files of every recursion.

use crate::draft::{Draft, Expr, Shape, Stmt};
use crate::rng::Rng;

/// Nests one shape; what nests is drawn, and how deep.
pub fn deep(rng: &mut Rng) -> Vec<u8> {
    let depth = rng.pick(&[3, 30, 100, 130, 250, 490]);
    nest(rng, depth)
}

/// The same as deep as the nodes go, but for the few that stand around it.
pub fn deepest(rng: &mut Rng) -> Vec<u8> {
    nest(rng, 506)
}

fn nest(rng: &mut Rng, depth: usize) -> Vec<u8> {
    let mut draft = Draft::new();
    for word in ["a", "x", "y", "v"] {
        draft.name(word);
    }
    match rng.below(14) {
        0 => nodes(rng, &mut draft, depth, |at| Expr::Record(vec![(0, at)])),
        1 => nodes(rng, &mut draft, depth, |at| Expr::Disjunction(vec![at])),
        2 => nodes(rng, &mut draft, depth, |at| Expr::Arith(vec![at])),
        3 => nodes(rng, &mut draft, depth, |at| Expr::Key(0, at)),
        4 => nodes(rng, &mut draft, depth, Expr::Value),
        5 => nodes(rng, &mut draft, depth, |at| Expr::Select(0, at)),
        6 => nodes(rng, &mut draft, depth, |at| Expr::Fact(1, at)),
        7 => nodes(rng, &mut draft, depth, |at| Expr::Subquery(at, Vec::new())),
        8 => statements(rng, &mut draft, depth / 3),
        9 => types(rng, &mut draft, depth.min(250)),
        10 => everything(rng, &mut draft),
        11 => unknowns(rng, &mut draft, depth / 2),
        12 => unions(rng, &mut draft, depth.min(63)),
        _ => reports(&mut draft, depth),
    }
    draft.bytes()
}

/// One node inside another, as a value, as a statement, or where it is rolled back.
fn nodes(rng: &mut Rng, draft: &mut Draft, depth: usize, around: impl Fn(u16) -> Expr) {
    draft.ty(Shape::Int);
    draft.ty(Shape::Fact(1));
    draft.predicate(0, 0, None);
    draft.predicate(0, 1, Some(1));
    let mut at = match rng.below(4) {
        0 => draft.node(Expr::Str),
        1 => draft.node(Expr::Wildcard),
        2 => draft.node(Expr::Error),
        _ => draft.var(1),
    };
    for _ in 0..depth {
        at = draft.node(around(at));
    }
    match rng.below(4) {
        0 => {
            draft.head = at;
            return;
        }
        1 => draft.body.push(Stmt::Implicit(at)),
        2 => {
            let left = draft.var(2);
            draft.bind(left, at);
        }
        _ => {
            let fact = draft.node(Expr::Fact(0, at));
            draft.body.push(Stmt::Negation(fact));
        }
    }
    draft.head = draft.node(Expr::Int);
}

/// The longest way round the cycle: infer, stmt, bind, infer.
fn statements(rng: &mut Rng, draft: &mut Draft, depth: usize) {
    draft.ty(Shape::Int);
    draft.predicate(0, 0, None);
    let mut at = draft.node(Expr::Int);
    for _ in 0..depth {
        let head = draft.node(Expr::Int);
        let stmt = match rng.below(5) {
            0 => Stmt::Implicit(at),
            1 => Stmt::Negation(at),
            2 => Stmt::Deny(draft.var(1), at),
            3 => Stmt::Compare(draft.var(1), at),
            _ => Stmt::Bind(draft.var(1), at),
        };
        at = draft.node(Expr::Subquery(head, vec![stmt]));
        if rng.chance(30) {
            at = draft.node(Expr::Fact(0, at));
        }
    }
    draft.head = at;
}

/// Types nested as deep as there are types, met by a pattern and by a type.
fn types(rng: &mut Rng, draft: &mut Draft, depth: usize) {
    let ty = nested(rng, draft, depth);
    draft.predicate(0, ty, Some(ty));
    draft.predicate(0, ty, None);
    let mut at = draft.node(Expr::Wildcard);
    for _ in 0..depth + rng.below(2) {
        at = draft.node(Expr::Record(vec![(0, at)]));
    }
    let fact = draft.node(Expr::Fact(0, at));
    draft.body.push(Stmt::Implicit(fact));
    for (predicate, name) in [(0, 1), (1, 2)] {
        let key = draft.var(name);
        let fact = draft.node(Expr::Fact(predicate, key));
        draft.body.push(Stmt::Implicit(fact));
    }
    draft.equate(1, 2);
    let (left, right) = (draft.var(1), draft.var(2));
    draft.body.push(Stmt::Compare(left, right));
    draft.head = draft.node(Expr::Int);
}

/// A record or union of one part around another, and a scalar or a fact within.
fn nested(rng: &mut Rng, draft: &mut Draft, depth: usize) -> u16 {
    let mixed = rng.chance(50);
    let mut ty = draft.ty(leaf(rng));
    for at in 0..depth {
        ty = if mixed && at % 2 == 0 {
            draft.ty(Shape::Union(vec![(0, at as u32, ty)]))
        } else {
            draft.ty(Shape::Record(vec![(0, ty)]))
        };
    }
    ty
}

fn leaf(rng: &mut Rng) -> Shape {
    match rng.below(3) {
        0 => Shape::Int,
        1 => Shape::Fact(0),
        _ => Shape::Record(Vec::new()),
    }
}

/// 767 deep: 511 records around an unknown, bound to the deepest type of the schema.
fn everything(rng: &mut Rng, draft: &mut Draft) {
    let ty = nested(rng, draft, 255);
    draft.predicate(0, 0, None);
    draft.predicate(0, ty, None);
    let inner = draft.var(3);
    let key = draft.node(Expr::Fact(1, inner));
    let mut body = vec![Stmt::Implicit(key)];
    let mut at = draft.var(3);
    for _ in 0..rng.pick(&[200, 495]) {
        at = draft.node(Expr::Record(vec![(0, at)]));
    }
    body.push(Stmt::Bind(draft.var(1), at));
    for _ in 0..2 {
        let (left, right) = (draft.var(2), draft.var(1));
        body.push(Stmt::Bind(left, right));
    }
    let (left, right) = (draft.var(2), draft.var(1));
    body.push(Stmt::Compare(left, right));
    if rng.chance(70) {
        // Rolled back, so that the answer is short.
        let head = draft.node(Expr::Str);
        let subquery = draft.node(Expr::Subquery(head, body));
        let fact = draft.node(Expr::Fact(0, subquery));
        body = vec![Stmt::Implicit(fact)];
    }
    draft.body = body;
    draft.head = draft.nodes.len() as u16;
    draft.node(Expr::Int);
}

/// A chain of unknowns, each bound to the next; some end in a type, some in a loop.
fn unknowns(rng: &mut Rng, draft: &mut Draft, length: usize) {
    let length = length.min(95);
    let names: Vec<u16> = (0..=length).map(|n| draft.name(&format!("{n}"))).collect();
    let backwards = rng.chance(50);
    for pair in names.windows(2) {
        if backwards {
            draft.equate(pair[1], pair[0]);
        } else {
            draft.equate(pair[0], pair[1]);
        }
    }
    match rng.below(4) {
        0 => draft.equate(names[length], names[0]),
        1 => {
            let inner = draft.var(names[0]);
            let record = draft.node(Expr::Record(vec![(0, inner)]));
            let left = draft.var(names[length]);
            draft.bind(left, record);
        }
        2 => {
            let right = draft.node(Expr::Error);
            let left = draft.var(names[length / 2]);
            draft.bind(left, right);
        }
        _ => {
            let right = draft.node(Expr::Int);
            let left = draft.var(names[length / 2]);
            draft.bind(left, right);
        }
    }
    draft.head = draft.var(names[0]);
}

/// Unions within unions, with as many alternatives as a line holds; where the file has
/// room for it, the second is another type, with its alternatives in another order.
fn unions(rng: &mut Rng, draft: &mut Draft, width: usize) {
    let first = widest(rng, draft, width);
    let second = if width < 40 {
        widest(rng, draft, width)
    } else {
        first
    };
    for (predicate, ty) in [(0, first), (1, second)] {
        draft.predicate(0, ty, None);
        let key = draft.var(1 + predicate);
        let fact = draft.node(Expr::Fact(predicate.into(), key));
        draft.body.push(Stmt::Implicit(fact));
    }
    draft.equate(1, 2);
    let (left, right) = (draft.var(1), draft.var(2));
    draft.body.push(Stmt::Compare(left, right));
    draft.head = draft.node(Expr::Int);
}

fn widest(rng: &mut Rng, draft: &mut Draft, width: usize) -> u16 {
    let mut ty = draft.ty(Shape::Int);
    for _ in 0..width {
        let mut alternatives: Vec<_> = (0..width).map(|n| (0, n as u32, 0)).collect();
        alternatives[width - 1].2 = ty;
        if rng.chance(30) {
            alternatives.reverse();
        }
        ty = draft.ty(Shape::Union(alternatives));
    }
    ty
}

/// Three diagnostics for each of many nodes.
fn reports(draft: &mut Draft, count: usize) {
    draft.term = 0;
    let nodes: Vec<u16> = (0..count).map(|_| draft.node(Expr::Fuzzy(0, 0))).collect();
    for some in nodes.chunks(180) {
        let node = draft.node(Expr::Arith(some.to_vec()));
        draft.body.push(Stmt::Implicit(node));
    }
    draft.head = draft.node(Expr::Wildcard);
}
