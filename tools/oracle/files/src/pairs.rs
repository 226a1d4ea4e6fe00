//! Unifications of several steps, for card 12: records with the same few variables in many places, compared with
//! records of the same shape, and variables that take declared unions.

use crate::draft::{Draft, Expr, Shape, Stmt};
use crate::rng::Rng;

/// Names 0 to 5 are variables, 6 to 9 fields and alternatives.
const VARIABLES: usize = 6;
const FIELDS: usize = 4;

#[derive(Clone)]
enum Term {
    Var(u16),
    Int,
    Str,
    Wildcard,
    Error,
    Record(Vec<(u16, Term)>),
}

pub fn pairs(rng: &mut Rng) -> Vec<u8> {
    let mut draft = Draft::new();
    for word in ["u", "v", "w", "x", "y", "z", "a", "b", "c", "d"] {
        draft.name(word);
    }
    schema(rng, &mut draft);
    for query in 0..rng.pick(&[1, 1, 1, 2, 4]) {
        if query > 0 {
            draft.close();
        }
        for _ in 0..rng.between(1, 9) {
            let stmt = statement(rng, &mut draft);
            draft.body.push(stmt);
        }
        draft.head = node(&mut draft, &Term::Int);
    }
    draft.bytes()
}

/// Records and unions that are alike but for order, a name, a discriminant, a payload or a part more.
fn schema(rng: &mut Rng, draft: &mut Draft) {
    let (int, str) = (draft.ty(Shape::Int), draft.ty(Shape::Str));
    let fact = draft.ty(Shape::Fact(rng.below(3) as u32));
    let mut known = vec![int, str, fact];
    for _ in 0..rng.between(2, 7) {
        let mut names: Vec<u16> = (0..FIELDS).map(field).collect();
        rng.shuffle(&mut names);
        names.truncate(rng.between(1, 3));
        if rng.chance(70) {
            names.sort_unstable();
        }
        let of = |rng: &mut Rng| known[rng.below(known.len())];
        let shape = if rng.chance(40) {
            Shape::Record(names.iter().map(|name| (*name, of(rng))).collect())
        } else {
            let mut parts: Vec<(u16, u32, u16)> = vec![];
            for (disc, name) in names.iter().enumerate() {
                let name = if rng.chance(10) { field(0) } else { *name };
                parts.push((name, disc as u32 + u32::from(rng.chance(5)) * 9, of(rng)));
            }
            if rng.chance(40) {
                parts.reverse();
            }
            Shape::Union(parts)
        };
        known.push(draft.ty(shape));
    }
    for _ in 0..3 {
        let part = |rng: &mut Rng| known[known.len() - 1 - rng.below(known.len())];
        let key = Shape::Record(vec![(field(0), part(rng)), (field(1), part(rng))]);
        let key = draft.ty(key);
        draft.predicate(0, key, None);
    }
}

fn field(number: usize) -> u16 {
    (VARIABLES + number) as u16
}

fn variable(rng: &mut Rng) -> Term {
    Term::Var(rng.below(VARIABLES) as u16)
}

fn term(rng: &mut Rng, depth: usize) -> Term {
    match rng.below(if depth == 0 { 12 } else { 20 }) {
        0..9 => variable(rng),
        9 => Term::Int,
        10 => Term::Str,
        11 if rng.chance(10) => Term::Error,
        11 => Term::Wildcard,
        _ => {
            let parts = (0..rng.between(1, FIELDS)).map(|number| (field(number), term(rng, depth - 1)));
            Term::Record(parts.collect())
        }
    }
}

/// The same shape with other leaves and its fields in another order; now and then with another field.
fn alike(rng: &mut Rng, of: &Term) -> Term {
    match of {
        Term::Record(parts) if rng.chance(92) => {
            let mut parts: Vec<(u16, Term)> = parts.iter().map(|(name, of)| (*name, alike(rng, of))).collect();
            if rng.chance(60) {
                rng.shuffle(&mut parts);
            }
            if rng.chance(3) {
                parts.push((field(rng.below(FIELDS)), Term::Int));
            }
            Term::Record(parts)
        }
        Term::Var(_) | Term::Wildcard if rng.chance(40) => term(rng, 1),
        other if rng.chance(70) => other.clone(),
        _ => variable(rng),
    }
}

fn node(draft: &mut Draft, term: &Term) -> u16 {
    let expr = match term {
        Term::Var(name) => Expr::Var(*name),
        Term::Int => Expr::Int,
        Term::Str => Expr::Str,
        Term::Wildcard => Expr::Wildcard,
        Term::Error => Expr::Error,
        Term::Record(parts) => {
            let parts = parts.iter().map(|(name, of)| (*name, node(draft, of)));
            Expr::Record(parts.collect())
        }
    };
    draft.node(expr)
}

fn statement(rng: &mut Rng, draft: &mut Draft) -> Stmt {
    match rng.below(10) {
        0..5 => {
            let left = term(rng, 3);
            let right = alike(rng, &left);
            Stmt::Compare(node(draft, &left), node(draft, &right))
        }
        5 | 6 => {
            let left = variable(rng);
            let right = term(rng, 2);
            Stmt::Bind(node(draft, &left), node(draft, &right))
        }
        7 => {
            let left = variable(rng);
            let right = variable(rng);
            Stmt::Deny(node(draft, &left), node(draft, &right))
        }
        _ => {
            let parts = (0..2).map(|number| (field(number), if rng.chance(80) { variable(rng) } else { term(rng, 2) }));
            let key = Term::Record(parts.collect());
            let key = node(draft, &key);
            Stmt::Implicit(draft.node(Expr::Fact(rng.below(3) as u32, key)))
        }
    }
}
