//! Files for the message texts: each text with odd names and numbers in it, types without an order
//! whose unknowns are bound later or no more, unions that differ, and messages of any length.

use crate::draft::{Draft, Expr, Shape, Stmt};
use crate::grow;
use crate::limits;
use crate::rng::Rng;
use crate::valid;

/// Names that a text could spoil: signs of its own, quotes, control characters, characters of
/// every length.
const NAMES: [&str; 20] = [
    "",
    "value",
    "a",
    "b",
    "f",
    "`",
    "{",
    "}",
    "?",
    "\n",
    "\0",
    "\\",
    "\"",
    "\u{7f}",
    "\u{e9}",
    "\u{2014}",
    "\u{10ffff}",
    "a fact",
    "an integer, b",
    "x = y",
];

fn odd_names(rng: &mut Rng, draft: &mut Draft) {
    for _ in 0..rng.between(3, 8) {
        let name = rng.pick(&NAMES);
        draft.name(name);
    }
    if rng.chance(8) {
        let length = rng.pick(&[2, 31, 32, 33, 127, 255, 256, 510, 511]);
        draft.name(&"n".repeat(length));
    }
}

/// Every text: faults of each kind over a schema of odd names.
pub fn messages(rng: &mut Rng) -> Draft {
    let mut draft = Draft::new();
    draft.distance = rng.pick(&[0, 1, 2, 2, 9, 10, 99, 100, 254, 255]);
    draft.term = rng.pick(&[0, 0, 1, 2, 9, 10, 32, 100, 999, 0xffff]);
    odd_names(rng, &mut draft);
    let names = draft.names.len();
    draft.types.extend([Shape::Int, Shape::Str, Shape::Bytes]);
    draft.types.extend([Shape::Fact(0), Shape::Fact(9)]);
    for _ in 0..rng.between(2, 5) {
        let types = draft.types.len();
        draft.ty(if rng.chance(50) {
            Shape::Record(grow::fields(rng, names, types, 3))
        } else {
            Shape::Union(grow::alternatives(rng, names, types, 3))
        });
    }
    for _ in 0..rng.between(2, 5) {
        let types = draft.types.len();
        let value = rng.chance(70).then(|| rng.below(types) as u16);
        let (name, key) = (rng.below(names) as u16, rng.below(types) as u16);
        draft.predicate(name, key, value);
    }
    if rng.chance(15) {
        // A key field that hides the value, read through a fact of it.
        let field = (draft.name("value"), rng.below(3) as u16);
        let key = draft.ty(Shape::Record(vec![field]));
        let predicate = draft.predicate(field.0, key, Some(0));
        let key = draft.node(Expr::Wildcard);
        let fact = draft.node(Expr::Fact(predicate, key));
        let value = draft.node(Expr::Value(fact));
        placed(rng, &mut draft, Stmt::Implicit(value));
    }
    for _ in 0..rng.between(1, 5) {
        let fault = fault(rng, &mut draft);
        placed(rng, &mut draft, fault);
    }
    draft.head = match rng.below(4) {
        0 => draft.node(Expr::Wildcard),
        1 => typed(rng, &mut draft, 2),
        _ => draft.var(rng.below(names) as u16),
    };
    draft
}

/// Puts a statement into the query: itself, in a choice, or in a subquery under a fact.
fn placed(rng: &mut Rng, draft: &mut Draft, stmt: Stmt) {
    let stmt = match rng.below(8) {
        0 => {
            let head = typed(rng, draft, 1);
            let inner = draft.node(Expr::Subquery(head, vec![stmt]));
            let predicates = draft.predicates.len();
            Stmt::Implicit(draft.node(Expr::Fact(rng.below(predicates + 1) as u32, inner)))
        }
        1 => {
            let head = typed(rng, draft, 1);
            let inner = draft.node(Expr::Subquery(head, vec![stmt]));
            let name = rng.below(draft.names.len()) as u16;
            let record = draft.node(Expr::Record(vec![(name, inner)]));
            let predicates = draft.predicates.len();
            Stmt::Negation(draft.node(Expr::Fact(rng.below(predicates + 1) as u32, record)))
        }
        _ => stmt,
    };
    draft.body.push(stmt);
}

fn fault(rng: &mut Rng, draft: &mut Draft) -> Stmt {
    let name = rng.below(draft.names.len()) as u16;
    match rng.below(16) {
        0 => {
            let left = literal(rng, draft);
            Stmt::Bind(left, typed(rng, draft, 1))
        }
        1 => {
            let left = if rng.chance(40) {
                draft.node(Expr::Wildcard)
            } else {
                literal(rng, draft)
            };
            Stmt::Deny(left, typed(rng, draft, 1))
        }
        2 => {
            let left = typed(rng, draft, 1);
            let left = draft.node(Expr::Disjunction(vec![left]));
            Stmt::Bind(left, typed(rng, draft, 1))
        }
        3 => {
            let left = typed(rng, draft, 1);
            let left = draft.node(Expr::Record(vec![(name, left)]));
            Stmt::Deny(left, typed(rng, draft, 1))
        }
        4 => {
            let near = [0, 1, draft.distance, draft.distance.wrapping_add(1), 255];
            let distance = rng.pick(&near);
            Stmt::Implicit(draft.node(Expr::Fuzzy(name, distance)))
        }
        5 => {
            let base = draft.var(name);
            let other = rng.below(draft.names.len()) as u16;
            Stmt::Implicit(draft.node(match rng.below(3) {
                0 => Expr::Key(other, base),
                1 => Expr::Value(base),
                _ => Expr::Select(other, base),
            }))
        }
        6 | 7 => {
            let base = typed(rng, draft, 2);
            Stmt::Implicit(draft.node(Expr::Select(name, base)))
        }
        8 => {
            let base = typed(rng, draft, 2);
            Stmt::Implicit(draft.node(Expr::Value(base)))
        }
        9 => {
            let base = typed(rng, draft, 2);
            Stmt::Implicit(draft.node(Expr::Key(name, base)))
        }
        10 | 11 => {
            let fields = (0..rng.below(4))
                .map(|_| {
                    let name = rng.below(draft.names.len()) as u16;
                    (name, typed(rng, draft, 1))
                })
                .collect();
            let key = draft.node(Expr::Record(fields));
            let predicate = rng.below(draft.predicates.len()) as u32;
            Stmt::Implicit(draft.node(Expr::Fact(predicate, key)))
        }
        12 => {
            let left = typed(rng, draft, 2);
            Stmt::Compare(left, typed(rng, draft, 2))
        }
        13 => {
            let inner = draft.var(name);
            let right = draft.node(Expr::Record(vec![(name, inner)]));
            Stmt::Bind(draft.var(name), right)
        }
        14 => {
            let operand = typed(rng, draft, 2);
            Stmt::Implicit(draft.node(Expr::Arith(vec![operand])))
        }
        _ => {
            let right = typed(rng, draft, 2);
            Stmt::Bind(draft.var(name), right)
        }
    }
}

fn literal(rng: &mut Rng, draft: &mut Draft) -> u16 {
    let name = rng.below(draft.names.len()) as u16;
    let expr = match rng.below(4) {
        0 => Expr::Int,
        1 => Expr::Str,
        2 => Expr::Bytes,
        _ => Expr::Prefix(name),
    };
    draft.node(expr)
}

/// A value whose type is mostly known: declared, written, or poisoned.
fn typed(rng: &mut Rng, draft: &mut Draft, depth: usize) -> u16 {
    let name = rng.below(draft.names.len()) as u16;
    let shape = if depth == 0 {
        rng.below(6)
    } else {
        rng.below(10)
    };
    match shape {
        0 => literal(rng, draft),
        1 | 2 => draft.var(name),
        3 => {
            let key = draft.node(Expr::Wildcard);
            let predicate = rng.below(draft.predicates.len() + 1) as u32;
            draft.node(Expr::Fact(predicate, key))
        }
        4 => {
            let key = draft.node(Expr::Wildcard);
            let predicate = rng.below(draft.predicates.len()) as u32;
            let fact = draft.node(Expr::Fact(predicate, key));
            draft.node(Expr::Value(fact))
        }
        5 => draft.node(if rng.chance(50) {
            Expr::Error
        } else {
            Expr::Wildcard
        }),
        6 => {
            let base = typed(rng, draft, depth - 1);
            draft.node(Expr::Key(name, base))
        }
        _ => {
            let fields = (0..rng.below(4))
                .map(|_| {
                    let name = rng.below(draft.names.len()) as u16;
                    (name, typed(rng, draft, depth - 1))
                })
                .collect();
            draft.node(Expr::Record(fields))
        }
    }
}

/// Types without an order, whose unknowns are bound before, bound later, unbound by a rollback, or
/// stand in them twice and more.
pub fn no_order(rng: &mut Rng) -> Draft {
    let mut draft = Draft::new();
    for word in ["k", "l", "m", "n", "f", "g"] {
        draft.name(word);
    }
    draft.types.extend([Shape::Int, Shape::Str]);
    draft.ty(Shape::Fact(0));
    let alternatives = vec![(4, 7, 2), (5, rng.below(3) as u32, rng.below(3) as u16)];
    let union = draft.ty(Shape::Union(alternatives));
    let key = draft.ty(Shape::Record(vec![(4, 0), (5, union)]));
    draft.predicate(rng.below(6) as u16, key, Some(union));
    draft.predicate(5, 0, Some(key));
    let around = rng.between(1, 3);
    for _ in 0..around {
        let mut body = vec![];
        for _ in 0..rng.between(1, 5) {
            body.push(step(rng, &mut draft));
        }
        body.push(ordered(rng, &mut draft));
        if rng.chance(40) {
            body.push(step(rng, &mut draft));
        }
        match rng.below(4) {
            // As a field: what it did is taken back, since it reports.
            0 | 1 => {
                let head = draft.node(Expr::Int);
                let inner = draft.node(Expr::Subquery(head, body));
                let record = draft.node(Expr::Record(vec![(4, inner)]));
                let fact = draft.node(Expr::Fact(0, record));
                draft.body.push(Stmt::Implicit(fact));
            }
            // As a key that does not fit.
            2 => {
                let head = draft.node(if rng.chance(60) { Expr::Str } else { Expr::Int });
                let inner = draft.node(Expr::Subquery(head, body));
                let fact = draft.node(Expr::Fact(1, inner));
                draft.body.push(Stmt::Implicit(fact));
            }
            _ => draft.body.append(&mut body),
        }
        if rng.chance(60) {
            let stmt = step(rng, &mut draft);
            draft.body.push(stmt);
        }
    }
    if rng.chance(50) {
        // Names that are known outside keep their unknown in all of it.
        let early: Vec<Stmt> = (0..rng.between(1, 3))
            .map(|name| Stmt::Implicit(draft.var(name as u16)))
            .collect();
        draft.body.splice(0..0, early);
    }
    let parts = (0..4).map(|name| (name, draft.var(name))).collect();
    draft.head = draft.node(Expr::Record(parts));
    draft
}

/// Binds one of four names to something small, or to a record of the others.
fn step(rng: &mut Rng, draft: &mut Draft) -> Stmt {
    let left = draft.var(rng.below(4) as u16);
    let right = part(rng, draft, 2);
    Stmt::Bind(left, right)
}

fn part(rng: &mut Rng, draft: &mut Draft, depth: usize) -> u16 {
    let shape = if depth == 0 {
        rng.below(7)
    } else {
        rng.below(11)
    };
    match shape {
        0 => draft.node(Expr::Bytes),
        1 => draft.node(Expr::Int),
        2 => draft.node(Expr::Error),
        3 | 4 => {
            let key = draft.node(Expr::Wildcard);
            draft.node(Expr::Fact(rng.pick(&[0, 1, 9]), key))
        }
        5 => {
            let key = draft.node(Expr::Wildcard);
            let fact = draft.node(Expr::Fact(rng.below(2) as u32, key));
            draft.node(Expr::Value(fact))
        }
        6 => draft.var(rng.below(4) as u16),
        7 | 8 => {
            // The same name twice: each step doubles what it stands for.
            let name = rng.below(4) as u16;
            let parts = [4, 5].map(|field| (field, draft.var(name)));
            draft.node(Expr::Record(parts.to_vec()))
        }
        _ => {
            let parts = (0..rng.between(1, 3))
                .map(|_| (4 + rng.below(2) as u16, part(rng, draft, depth - 1)))
                .collect();
            draft.node(Expr::Record(parts))
        }
    }
}

/// A comparison whose left side is likely to hold a fact.
fn ordered(rng: &mut Rng, draft: &mut Draft) -> Stmt {
    let name = rng.below(4) as u16;
    let mut side = |rng: &mut Rng| match rng.below(5) {
        0 => {
            let parts = vec![
                (4, draft.var(rng.below(4) as u16)),
                (5, part(rng, draft, 1)),
            ];
            draft.node(Expr::Record(parts))
        }
        1 => part(rng, draft, 1),
        _ => draft.var(name),
    };
    let left = side(rng);
    let right = if rng.chance(40) {
        draft.node(Expr::Error)
    } else {
        side(rng)
    };
    Stmt::Compare(left, right)
}

/// Unions that differ in one place or in several, by themselves, within unions and within records.
pub fn differences(rng: &mut Rng) -> Draft {
    let mut draft = Draft::new();
    for word in ["a", "b", "c", "", "p", "x"] {
        draft.name(word);
    }
    draft.types.extend([Shape::Int, Shape::Str, Shape::Bytes]);
    draft.ty(Shape::Fact(rng.below(3) as u32));
    draft.ty(Shape::Record(vec![]));
    let alternatives = loop {
        let some = grow::alternatives(rng, 4, 5, 5);
        if some.len() > 1 {
            break some;
        }
    };
    let mut family = vec![];
    for _ in 0..rng.between(2, 3) {
        let mut other = alternatives.clone();
        for _ in 0..rng.between(0, 3) {
            let at = rng.below(other.len());
            if rng.chance(25) && !other.is_empty() {
                other[at].0 = (other[at].0 + 1 + rng.below(3) as u16) % 4;
            } else {
                valid::twist_union(rng, &mut draft, &mut other);
            }
        }
        family.push(draft.ty(Shape::Union(other)));
    }
    for _ in 0..rng.below(3) {
        let record = rng.chance(40);
        let disc = rng.pick(&grow::DISCRIMINANTS[1..]);
        for ty in &mut family {
            *ty = draft.ty(if record {
                Shape::Record(vec![(0, *ty)])
            } else {
                Shape::Union(vec![(0, disc, *ty), (1, 0, 0)])
            });
        }
    }
    for ty in &family {
        draft.predicate(4, *ty, Some(*ty));
    }
    for _ in 0..rng.between(1, 4) {
        let stmt = match rng.below(5) {
            0 | 1 => {
                let key = draft.var(5);
                Stmt::Implicit(draft.node(Expr::Fact(rng.below(family.len()) as u32, key)))
            }
            2 => {
                let (left, right) = (draft.var(5), value(rng, &mut draft, family.len()));
                Stmt::Bind(left, right)
            }
            3 => {
                let left = value(rng, &mut draft, family.len());
                Stmt::Compare(left, value(rng, &mut draft, family.len()))
            }
            _ => {
                let branches = (0..2).map(|_| value(rng, &mut draft, family.len()));
                let branches = branches.collect();
                let left = draft.var(5);
                Stmt::Deny(left, draft.node(Expr::Disjunction(branches)))
            }
        };
        draft.body.push(stmt);
    }
    draft.head = draft.var(5);
    draft
}

/// What a fact of one of so many predicates has for its value.
fn value(rng: &mut Rng, draft: &mut Draft, predicates: usize) -> u16 {
    let key = draft.node(Expr::Wildcard);
    let fact = draft.node(Expr::Fact(rng.below(predicates) as u32, key));
    draft.node(Expr::Value(fact))
}

/// An answer around 65,536 bytes whose last diagnostic is a message, of a long name or of a wide record.
pub fn message_last(rng: &mut Rng) -> Vec<u8> {
    let size = 65_535 + rng.below(3) - limits::VISITS_LINE;
    let mut draft = Draft::new();
    if rng.chance(50) {
        // {}.name: two nodes of 13 and 9 characters, 59 for the diagnostic, 47 around the name.
        let length = rng.between(3, 511);
        limits::answer_over(&mut draft, size - 13 - 9 - 59 - 47 - 2 * length);
        let name = draft.name(&"n".repeat(length));
        let record = draft.node(Expr::Record(vec![]));
        draft.head = draft.node(Expr::Key(name, record));
    } else {
        // p "" where p's key is a record: two nodes of 9 and 17, the diagnostic, and its message.
        let fields: usize = (0..127)
            .map(|n| format!("{n} = an integer").len() + 2)
            .sum();
        let text = "expected {}, found a string".len() + fields - 2;
        limits::answer_over(&mut draft, size - 9 - 17 - 59 - 3 - 2 * text);
        let key = draft.node(Expr::Str);
        draft.head = draft.node(Expr::Fact(0, key));
    }
    draft.bytes()
}

/// Messages that show types of any length: declared ones that double, and resolved ones. What the
/// node lines would show is taken back.
pub fn renderings(rng: &mut Rng) -> Vec<u8> {
    let mut draft = Draft::new();
    let names: Vec<u16> = (0..2)
        .map(|n| {
            let length = rng.pick(&[0, 1, 1, 2, 20, 200]);
            draft.name(&format!("{n}{}", "n".repeat(length)))
        })
        .collect();
    let leaf = match rng.below(4) {
        0 => Shape::Int,
        1 => Shape::Str,
        2 => Shape::Fact(0),
        _ => Shape::Record(vec![]),
    };
    let leaf = draft.ty(leaf);
    let int = draft.ty(Shape::Int);
    let scalar = draft.predicate(names[0], int, None);
    let steps = if rng.chance(3) {
        rng.pick(&[17, 18, 30, 253])
    } else {
        rng.between(1, 12)
    };
    if rng.chance(60) {
        let mut ty = leaf;
        for step in 0..steps {
            ty = draft.ty(if rng.chance(70) {
                Shape::Record(vec![(names[0], ty), (names[1], ty)])
            } else {
                let disc = rng.pick(&grow::DISCRIMINANTS[1..]);
                Shape::Union(vec![(names[1], disc, ty), (names[0], 0, ty)])
            });
            if step % 4 == 3 && rng.chance(30) {
                draft.predicate(names[1], ty, None);
            }
        }
        draft.predicate(names[1], ty, None);
        for _ in 0..rng.between(1, 4) {
            let key = literal(rng, &mut draft);
            let predicate = 1 + rng.below(draft.predicates.len() - 1) as u32;
            let fact = draft.node(Expr::Fact(predicate, key));
            draft.body.push(Stmt::Implicit(fact));
        }
    } else {
        let unknowns: Vec<u16> = (0..=steps.min(95))
            .map(|n| draft.name(&format!("x{n}")))
            .collect();
        let mut body = vec![];
        for pair in unknowns.windows(2) {
            let parts = [0, 1].map(|field| (names[field], draft.var(pair[1])));
            let right = draft.node(Expr::Record(parts.to_vec()));
            body.push(Stmt::Bind(draft.var(pair[0]), right));
        }
        let key = draft.node(Expr::Wildcard);
        let right = draft.node(Expr::Fact(rng.pick(&[0, 9]), key));
        let last = draft.var(unknowns[unknowns.len() - 1]);
        body.push(Stmt::Bind(last, right));
        let (left, right) = (draft.var(unknowns[0]), draft.node(Expr::Error));
        body.push(Stmt::Compare(left, right));
        let head = draft.node(Expr::Str);
        let inner = draft.node(Expr::Subquery(head, body));
        let fact = draft.node(Expr::Fact(scalar, inner));
        draft.body.push(Stmt::Implicit(fact));
    }
    if rng.chance(4) {
        // 11 comes before 12, whichever of the two is met first.
        limits::spend(rng, &mut draft, limits::MOST_VISITS + 1, true);
    }
    draft.head = draft.node(if rng.chance(20) {
        Expr::Wildcard
    } else {
        Expr::Int
    });
    draft.bytes()
}
