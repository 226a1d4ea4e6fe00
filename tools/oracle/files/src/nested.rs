//! Every recursion as deep as the limits let it go, one file for each way.

use crate::draft::{Draft, Expr, Shape, Stmt};

/// The most nodes of a file, and how deep its types go.
const NODES: usize = 512;
const DEPTH: usize = 255;

/// The files, each with its name.
pub fn nested() -> Vec<(String, Vec<u8>)> {
    let mut files = vec![];
    for around in 0..8 {
        for inner in 0..4 {
            for end in 0..7 {
                let file = nodes(around, inner, end);
                files.push((format!("nodes-{around}-{inner}-{end}"), file));
            }
        }
    }
    for stmt in 0..5 {
        for left in 0..4 {
            for fact in [false, true] {
                let file = statements(stmt, left, fact);
                files.push((format!("statements-{stmt}-{left}-{fact}"), file));
            }
        }
    }
    for kind in 0..3 {
        files.push((format!("types-{kind}"), types(kind)));
        for hidden in [false, true] {
            let file = everything(kind, hidden, false);
            files.push((format!("everything-{kind}-{hidden}"), file));
            let file = everything(kind, hidden, true);
            files.push((format!("unordered-{kind}-{hidden}"), file));
        }
        files.push((format!("two-{kind}"), two(kind)));
    }
    files.push(("infinite".to_owned(), infinite()));
    files
}

/// Files for the stack: shapes of nodes within each other, alone and in turn, as deep as the nodes go, and at
/// the bottom two variables of the deepest type that meet, or one that a message shows.
pub fn stacked() -> Vec<(String, Vec<u8>)> {
    let mut files = nested();
    for first in 0..AROUND {
        for second in first..AROUND {
            for kind in 0..3 {
                for end in 0..6 {
                    let file = stack(first, second, kind, end);
                    files.push((format!("stack-{first}-{second}-{kind}-{end}"), file));
                }
            }
        }
    }
    for kind in 0..3 {
        for inner in 0..5 {
            files.push((format!("facts-{kind}-{inner}"), facts(kind, inner)));
        }
    }
    files
}

/// The ways that `around` knows.
const AROUND: usize = 12;

/// A node around another.
fn around(draft: &mut Draft, way: usize, at: u16) -> u16 {
    let expr = match way {
        0 => Expr::Record(vec![(0, at)]),
        1 => Expr::Disjunction(vec![at]),
        2 => Expr::Arith(vec![at]),
        3 => Expr::Key(0, at),
        4 => Expr::Value(at),
        5 => Expr::Select(0, at),
        6 => Expr::Fact(2, at),
        7 => Expr::Subquery(at, vec![]),
        _ => {
            let head = draft.node(Expr::Int);
            let stmt = match way {
                8 => Stmt::Implicit(at),
                9 => Stmt::Bind(draft.var(3), at),
                10 => Stmt::Deny(draft.var(3), at),
                _ => Stmt::Compare(draft.var(3), at),
            };
            Expr::Subquery(head, vec![stmt])
        }
    };
    draft.node(expr)
}

fn stack(first: usize, second: usize, kind: usize, end: usize) -> Vec<u8> {
    let mut draft = draft();
    // One fewer than there can be: the key of predicate 2 is a fact of it.
    let (ty, fact) = if end == 5 {
        let fact = draft.ty(Shape::Fact(2));
        (nest(&mut draft, kind, fact, DEPTH - 1), fact)
    } else {
        let ty = nest(&mut draft, kind, 0, DEPTH - 1);
        (ty, draft.ty(Shape::Fact(2)))
    };
    for key in [ty, ty, fact] {
        draft.predicate(0, key, Some(key));
    }
    holds(&mut draft, 0, 1);
    holds(&mut draft, 1, 2);
    let (left, right) = (draft.var(1), draft.var(2));
    let stmt = match end {
        0 => Stmt::Bind(left, right),
        1 => Stmt::Compare(left, right),
        2 => Stmt::Deny(left, right),
        // Not an integer; and without an order, as it holds a fact.
        4 => Stmt::Implicit(draft.node(Expr::Arith(vec![left]))),
        5 => Stmt::Compare(left, right),
        _ => {
            let meet = draft.node(Expr::Disjunction(vec![left, right]));
            Stmt::Bind(draft.var(4), meet)
        }
    };
    let mut body = std::mem::take(&mut draft.body);
    body.push(stmt);
    let head = draft.node(Expr::Int);
    let mut at = draft.node(Expr::Subquery(head, body));
    let mut turn = 0;
    while draft.nodes.len() + 3 <= NODES {
        let way = if turn % 2 == 0 { first } else { second };
        at = around(&mut draft, way, at);
        turn += 1;
    }
    draft.head = at;
    draft.bytes()
}

/// Facts in facts, as many as there are nodes, of a predicate whose key is the deepest type, which meets itself
/// at the bottom: as a fact's value, or as a variable that has it.
fn facts(kind: usize, inner: usize) -> Vec<u8> {
    let mut draft = draft();
    let ty = deepest(&mut draft, kind);
    draft.predicate(0, ty, Some(ty));
    let mut at = match inner {
        0 => {
            let key = draft.node(Expr::Wildcard);
            let fact = draft.node(Expr::Fact(0, key));
            draft.node(Expr::Value(fact))
        }
        1 => {
            let left = draft.var(1);
            let key = draft.node(Expr::Wildcard);
            let fact = draft.node(Expr::Fact(0, key));
            draft.bind(left, fact);
            let base = draft.var(1);
            draft.node(Expr::Value(base))
        }
        2 => {
            holds(&mut draft, 0, 1);
            draft.var(1)
        }
        // In an operand and in a branch, which are unified in a frame further down.
        3 => {
            holds(&mut draft, 0, 1);
            let operand = draft.var(1);
            draft.node(Expr::Arith(vec![operand]))
        }
        _ => {
            holds(&mut draft, 0, 1);
            let (left, right) = (draft.var(1), draft.var(1));
            draft.node(Expr::Disjunction(vec![left, right]))
        }
    };
    while draft.nodes.len() < NODES {
        at = draft.node(Expr::Fact(0, at));
    }
    draft.head = at;
    draft.bytes()
}

fn draft() -> Draft {
    let mut draft = Draft::new();
    for name in ["a", "x", "y", "z", "w"] {
        draft.name(name);
    }
    draft.ty(Shape::Int);
    draft
}

/// One shape of node inside another, all of them, in each place of a query.
fn nodes(around: usize, inner: usize, end: usize) -> Vec<u8> {
    let mut draft = draft();
    let fact = draft.ty(Shape::Fact(1));
    draft.predicate(0, 0, None);
    draft.predicate(0, fact, Some(fact));
    let mut at = draft.node(match inner {
        0 => Expr::Str,
        1 => Expr::Wildcard,
        2 => Expr::Error,
        _ => Expr::Var(1),
    });
    let spare = [0, 1, 1, 2, 2, 2, 2][end];
    while draft.nodes.len() < NODES - spare {
        at = draft.node(match around {
            0 => Expr::Record(vec![(0, at)]),
            1 => Expr::Disjunction(vec![at]),
            2 => Expr::Arith(vec![at]),
            3 => Expr::Key(0, at),
            4 => Expr::Value(at),
            5 => Expr::Select(0, at),
            6 => Expr::Fact(1, at),
            _ => Expr::Subquery(at, vec![]),
        });
    }
    if end == 0 {
        draft.head = at;
        return draft.bytes();
    }
    let stmt = match end {
        1 => Stmt::Implicit(at),
        2 => Stmt::Negation(at),
        3 => Stmt::Bind(draft.var(2), at),
        4 => Stmt::Deny(draft.var(2), at),
        5 => Stmt::Compare(draft.var(2), at),
        _ => Stmt::Negation(draft.node(Expr::Fact(0, at))),
    };
    draft.body.push(stmt);
    draft.head = draft.node(Expr::Int);
    draft.bytes()
}

/// A statement in a subquery in a statement, and so on.
fn statements(stmt: usize, left: usize, fact: bool) -> Vec<u8> {
    let mut draft = draft();
    draft.predicate(0, 0, None);
    let mut at = draft.node(Expr::Int);
    while draft.nodes.len() + 5 <= NODES {
        let head = draft.node(Expr::Int);
        let one = stmt == 1 || stmt == 2;
        let target = match left {
            _ if one => 0,
            0 => draft.var(1),
            1 => {
                let inner = draft.var(1);
                draft.node(Expr::Record(vec![(0, inner)]))
            }
            2 => draft.node(Expr::Int),
            _ => draft.node(Expr::Wildcard),
        };
        let stmt = match stmt {
            0 => Stmt::Bind(target, at),
            1 => Stmt::Implicit(at),
            2 => Stmt::Negation(at),
            3 => Stmt::Deny(target, at),
            _ => Stmt::Compare(target, at),
        };
        at = draft.node(Expr::Subquery(head, vec![stmt]));
        if fact {
            at = draft.node(Expr::Fact(0, at));
        }
    }
    draft.head = at;
    draft.bytes()
}

/// The deepest type: records, unions, or both in turn.
fn deepest(draft: &mut Draft, kind: usize) -> u16 {
    nest(draft, kind, 0, DEPTH)
}

fn nest(draft: &mut Draft, kind: usize, leaf: u16, depth: usize) -> u16 {
    let mut ty = leaf;
    for at in 0..depth {
        ty = if kind == 1 || kind == 2 && at % 2 == 1 {
            draft.ty(Shape::Union(vec![(0, at as u32, ty)]))
        } else {
            draft.ty(Shape::Record(vec![(0, ty)]))
        };
    }
    ty
}

/// That type met by a pattern, by itself, and asked for its order.
fn types(kind: usize) -> Vec<u8> {
    let mut draft = draft();
    let ty = deepest(&mut draft, kind);
    draft.predicate(0, ty, Some(ty));
    draft.predicate(0, ty, None);
    let mut at = draft.node(Expr::Wildcard);
    for _ in 0..DEPTH {
        at = draft.node(Expr::Record(vec![(0, at)]));
    }
    let fact = draft.node(Expr::Fact(0, at));
    draft.body.push(Stmt::Implicit(fact));
    holds(&mut draft, 0, 1);
    holds(&mut draft, 1, 2);
    draft.equate(1, 2);
    ordered(&mut draft, 1, 2);
    draft.head = draft.var(1);
    draft.bytes()
}

/// As many records as there are nodes around an unknown that is bound to the deepest type; where that
/// holds a fact, a message shows all of it.
fn everything(kind: usize, hidden: bool, fact: bool) -> Vec<u8> {
    let mut draft = draft();
    let ty = if fact {
        let leaf = draft.ty(Shape::Fact(0));
        nest(&mut draft, kind, leaf, DEPTH - 1)
    } else {
        deepest(&mut draft, kind)
    };
    draft.predicate(0, 0, None);
    draft.predicate(0, ty, None);
    holds(&mut draft, 1, 3);
    let mut at = draft.var(3);
    while draft.nodes.len() < NODES - 13 {
        at = draft.node(Expr::Record(vec![(0, at)]));
    }
    let left = draft.var(1);
    draft.bind(left, at);
    draft.equate(2, 1);
    draft.equate(2, 1);
    ordered(&mut draft, 2, 1);
    if hidden {
        // Rolled back, so that the answer is short.
        let body = std::mem::take(&mut draft.body);
        let head = draft.node(Expr::Str);
        let subquery = draft.node(Expr::Subquery(head, body));
        let fact = draft.node(Expr::Fact(0, subquery));
        draft.body.push(Stmt::Implicit(fact));
    }
    draft.head = draft.node(Expr::Int);
    draft.bytes()
}

/// Two inferred records, half of all nodes each, with the deepest type at both ends.
fn two(kind: usize) -> Vec<u8> {
    let mut draft = draft();
    let ty = deepest(&mut draft, kind);
    draft.predicate(0, ty, None);
    for (name, inner) in [(1, 3), (2, 4)] {
        holds(&mut draft, 0, inner);
        let mut at = draft.var(inner);
        for _ in 0..247 {
            at = draft.node(Expr::Record(vec![(0, at)]));
        }
        let left = draft.var(name);
        draft.bind(left, at);
    }
    draft.equate(1, 2);
    ordered(&mut draft, 1, 2);
    draft.head = draft.node(Expr::Int);
    draft.bytes()
}

fn infinite() -> Vec<u8> {
    let mut draft = draft();
    let mut at = draft.var(1);
    while draft.nodes.len() < NODES - 2 {
        at = draft.node(Expr::Record(vec![(0, at)]));
    }
    let left = draft.var(1);
    draft.bind(left, at);
    draft.head = draft.node(Expr::Int);
    draft.bytes()
}

/// A fact whose key is a variable.
fn holds(draft: &mut Draft, predicate: u32, name: u16) {
    let key = draft.var(name);
    let fact = draft.node(Expr::Fact(predicate, key));
    draft.body.push(Stmt::Implicit(fact));
}

fn ordered(draft: &mut Draft, left: u16, right: u16) {
    let (left, right) = (draft.var(left), draft.var(right));
    draft.body.push(Stmt::Compare(left, right));
}
