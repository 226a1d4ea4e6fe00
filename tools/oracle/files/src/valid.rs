//! Files that are read without a refusal, each style bent towards one part of ty.rs.

use crate::draft::{Draft, Expr, Shape, Stmt};
use crate::grow::{self, CALM, DISCRIMINANTS, Taste};
use crate::rng::Rng;

pub fn grown(rng: &mut Rng) -> Draft {
    grow::grown(rng, CALM)
}

/// The same with many statements and nodes.
pub fn large(rng: &mut Rng) -> Draft {
    let taste = Taste {
        misfits: rng.pick(&[1, 3, 10]),
        statements: 60,
        nodes: 450,
        ..CALM
    };
    grow::grown(rng, taste)
}

/// Near misses: patterns of which a part does not fit.
pub fn misfits(rng: &mut Rng) -> Draft {
    let taste = Taste {
        misfits: rng.pick(&[10, 20, 40]),
        odd_statements: 10,
        ..CALM
    };
    grow::grown(rng, taste)
}

pub fn poison(rng: &mut Rng) -> Draft {
    let taste = Taste {
        misfits: 25,
        poison: 70,
        paths: 40,
        ..CALM
    };
    grow::grown(rng, taste)
}

pub fn scopes(rng: &mut Rng) -> Draft {
    let taste = Taste {
        scopes: 45,
        misfits: 8,
        odd_statements: 15,
        variables: 35,
        ..CALM
    };
    grow::grown(rng, taste)
}

/// Any shape over any free nodes, without a thought about types.
pub fn wild(rng: &mut Rng) -> Draft {
    let nodes = rng.between(1, 24);
    wild_tree(rng, nodes)
}

/// The same with a handful of nodes, so that all small trees come up.
pub fn tiny(rng: &mut Rng) -> Draft {
    let nodes = rng.between(1, 4);
    wild_tree(rng, nodes)
}

pub fn wild_tree(rng: &mut Rng, nodes: usize) -> Draft {
    let mut draft = Draft::new();
    grow::schema(rng, &mut draft);
    wild_query(rng, &mut draft, nodes);
    draft
}

/// The same over the schema that a draft already has.
pub fn wild_query(rng: &mut Rng, draft: &mut Draft, nodes: usize) {
    let mut free = Vec::new();
    for _ in 0..nodes {
        let expr = wild_expr(rng, draft, &mut free);
        free.push(draft.node(expr));
    }
    draft.head = take(rng, &mut free).unwrap_or(0);
    while let Some(stmt) = wild_stmt(rng, &mut free) {
        draft.body.push(stmt);
        if rng.chance(10) {
            break;
        }
    }
}

fn take(rng: &mut Rng, free: &mut Vec<u16>) -> Option<u16> {
    (!free.is_empty()).then(|| free.swap_remove(rng.below(free.len())))
}

fn some(rng: &mut Rng, free: &mut Vec<u16>, most: usize) -> Vec<u16> {
    (0..rng.between(0, most))
        .map_while(|_| take(rng, free))
        .collect()
}

fn wild_stmt(rng: &mut Rng, free: &mut Vec<u16>) -> Option<Stmt> {
    let left = take(rng, free)?;
    let one = rng.chance(40);
    Some(match take(rng, free).filter(|_| !one) {
        None => rng.pick(&[Stmt::Implicit(left), Stmt::Negation(left)]),
        Some(right) => rng.pick(&[
            Stmt::Bind(left, right),
            Stmt::Bind(left, right),
            Stmt::Deny(left, right),
            Stmt::Compare(left, right),
        ]),
    })
}

fn wild_expr(rng: &mut Rng, draft: &Draft, free: &mut Vec<u16>) -> Expr {
    let name = rng.below(draft.names.len()) as u16;
    let predicate = rng.below(draft.predicates.len() + 1) as u32;
    let leaf = match rng.below(12) {
        0 | 1 => Expr::Int,
        2 => Expr::Str,
        3 => Expr::Bytes,
        4 => Expr::Wildcard,
        5 => Expr::Never,
        6 => Expr::Prefix(name),
        7 => Expr::Fuzzy(name, rng.below(4) as u8),
        8 => Expr::Error,
        _ => Expr::Var(name),
    };
    if free.is_empty() || rng.chance(40) {
        return match rng.below(14) {
            0 => Expr::Record(Vec::new()),
            1 => Expr::Disjunction(Vec::new()),
            2 => Expr::Arith(Vec::new()),
            _ => leaf,
        };
    }
    match rng.below(9) {
        0 | 1 => {
            let nodes = some(rng, free, 3);
            let named = nodes
                .into_iter()
                .map(|node| (rng.below(draft.names.len()) as u16, node))
                .collect();
            Expr::Record(named)
        }
        2 => Expr::Key(name, take(rng, free).unwrap_or(0)),
        3 => Expr::Value(take(rng, free).unwrap_or(0)),
        4 => Expr::Disjunction(some(rng, free, 3)),
        5 => {
            let head = take(rng, free).unwrap_or(0);
            let body = (0..rng.below(3))
                .map_while(|_| wild_stmt(rng, free))
                .collect();
            Expr::Subquery(head, body)
        }
        6 => Expr::Fact(predicate, take(rng, free).unwrap_or(0)),
        7 => Expr::Arith(some(rng, free, 3)),
        _ => Expr::Select(name, take(rng, free).unwrap_or(0)),
    }
}

/// Equations between terms of unknowns and records: chains, sharing, infinite types.
pub fn unknowns(rng: &mut Rng) -> Draft {
    let mut draft = Draft::new();
    equation_names(&mut draft);
    equations(rng, &mut draft, 9);
    draft
}

/// The names that equations are over.
pub fn equation_names(draft: &mut Draft) {
    for word in ["x", "y", "z", "u", "v", "w", "a", "b"] {
        draft.name(word);
    }
}

/// A query of at least two equations over these names, which are the draft's first.
pub fn equations(rng: &mut Rng, draft: &mut Draft, most: usize) {
    for _ in 0..rng.between(2, most) {
        let stmt = match rng.below(10) {
            0..6 => {
                let left = draft.var(rng.below(6) as u16);
                Stmt::Bind(left, term(rng, draft, 2))
            }
            6 => {
                let left = pattern(rng, draft, 2);
                Stmt::Bind(left, term(rng, draft, 2))
            }
            7 => {
                let left = draft.var(rng.below(6) as u16);
                Stmt::Deny(left, term(rng, draft, 2))
            }
            8 => {
                let left = term(rng, draft, 2);
                Stmt::Compare(left, term(rng, draft, 2))
            }
            _ => {
                let branches = (0..rng.between(1, 3))
                    .map(|_| term(rng, draft, 1))
                    .collect();
                let right = draft.node(Expr::Disjunction(branches));
                let left = draft.var(rng.below(6) as u16);
                Stmt::Bind(left, right)
            }
        };
        draft.body.push(stmt);
    }
    draft.head = term(rng, draft, 1);
}

fn term(rng: &mut Rng, draft: &mut Draft, depth: usize) -> u16 {
    let expr = match rng.weighted(&[50, if depth > 0 { 38 } else { 0 }, 5, 4, 2, 1]) {
        0 => Expr::Var(rng.below(6) as u16),
        1 => {
            let parts = (0..rng.weighted(&[1, 4, 5, 1]))
                .map(|_| (6 + rng.below(2) as u16, term(rng, draft, depth - 1)))
                .collect();
            Expr::Record(parts)
        }
        2 => Expr::Int,
        3 => Expr::Wildcard,
        4 => Expr::Error,
        _ => Expr::Str,
    };
    draft.node(expr)
}

fn pattern(rng: &mut Rng, draft: &mut Draft, depth: usize) -> u16 {
    let parts = (0..rng.weighted(&[1, 4, 5, 1]))
        .map(|_| {
            let node = match rng.below(6) {
                0 if depth > 0 => pattern(rng, draft, depth - 1),
                1 => draft.node(Expr::Wildcard),
                _ => draft.var(rng.below(6) as u16),
            };
            (6 + rng.below(2) as u16, node)
        })
        .collect();
    draft.node(Expr::Record(parts))
}

/// Types that are alike but for a twist, one variable for each, and the variables
/// compared with each other.
pub fn alike(rng: &mut Rng) -> Draft {
    let mut draft = Draft::new();
    for word in ["a", "b", "c", "value", "p", "q", "r", "s"] {
        draft.name(word);
    }
    draft.types.extend([Shape::Int, Shape::Str, Shape::Bytes]);
    let fact = rng.below(3) as u32;
    draft.ty(Shape::Fact(fact));
    draft.ty(Shape::Record(Vec::new()));
    let unions = rng.chance(60);
    let mut fields = grow::fields(rng, 4, 5, 3);
    let mut alternatives = grow::alternatives(rng, 4, 5, 4);
    if rng.chance(50) {
        for alternative in &mut alternatives {
            alternative.2 = payload(rng, &mut draft);
        }
    }
    let mut family = Vec::new();
    for _ in 0..rng.between(2, 4) {
        family.push(if unions {
            let ty = draft.ty(Shape::Union(alternatives.clone()));
            twist_union(rng, &mut draft, &mut alternatives);
            ty
        } else {
            let ty = draft.ty(Shape::Record(fields.clone()));
            twist_record(rng, &mut draft, &mut fields);
            ty
        });
    }
    if rng.chance(40) {
        // One record or union around each of them.
        family = family
            .into_iter()
            .map(|ty| {
                let around = if rng.chance(50) {
                    Shape::Record(vec![(0, ty)])
                } else {
                    Shape::Union(vec![(0, 1, ty), (1, 0, 0)])
                };
                draft.ty(around)
            })
            .collect();
    }
    for (place, &ty) in family.iter().enumerate() {
        let predicate = draft.predicate(4, ty, Some(ty));
        let node = draft.var(4 + place as u16);
        let fact = draft.node(Expr::Fact(predicate, node));
        draft.body.push(Stmt::Implicit(fact));
    }
    for _ in 0..rng.between(1, 4) {
        let stmt = crossed(rng, &mut draft, family.len());
        draft.body.push(stmt);
    }
    draft.head = draft.var(4);
    draft
}

fn crossed(rng: &mut Rng, draft: &mut Draft, family: usize) -> Stmt {
    let mut side = |rng: &mut Rng| {
        let base = draft.var(4 + rng.below(family) as u16);
        match rng.below(10) {
            0 => draft.node(Expr::Select(rng.below(4) as u16, base)),
            1 => draft.node(Expr::Key(rng.below(4) as u16, base)),
            2 => draft.node(Expr::Record(vec![(rng.below(4) as u16, base)])),
            3 => {
                let other = draft.var(4 + rng.below(family) as u16);
                draft.node(Expr::Disjunction(vec![base, other]))
            }
            4 => {
                let inner = rng.below(4) as u16;
                let record = draft.node(Expr::Record(vec![(inner, base)]));
                draft.node(Expr::Fact(rng.below(family) as u32, record))
            }
            5 => draft.node(Expr::Fact(rng.below(family) as u32, base)),
            _ => base,
        }
    };
    let left = side(rng);
    let right = side(rng);
    rng.pick(&[
        Stmt::Bind(left, right),
        Stmt::Compare(left, right),
        Stmt::Compare(left, right),
        Stmt::Deny(left, right),
    ])
}

/// A record of two fields, the names drawn from few.
fn payload(rng: &mut Rng, draft: &mut Draft) -> u16 {
    let first = rng.below(4) as u16;
    let second = (first + rng.between(1, 2) as u16) % 4;
    let (a, b) = (rng.below(2) as u16, rng.below(2) as u16);
    draft.ty(Shape::Record(vec![(first, a), (second, b)]))
}

pub fn twist_union(rng: &mut Rng, draft: &mut Draft, alternatives: &mut Vec<(u16, u32, u16)>) {
    let at = rng.below(alternatives.len());
    match rng.below(11) {
        0..3 => rng.shuffle(alternatives),
        3 if !alternatives.is_empty() => alternatives[at].0 = rng.below(4) as u16,
        4 if !alternatives.is_empty() => {
            let disc = rng.pick(&DISCRIMINANTS);
            if alternatives.iter().all(|alt| alt.1 != disc) {
                alternatives[at].1 = disc;
            }
        }
        5 if !alternatives.is_empty() => alternatives[at].2 = rng.below(5) as u16,
        6 if !alternatives.is_empty() => drop(alternatives.remove(at)),
        7 => {
            let disc = rng.pick(&DISCRIMINANTS);
            if alternatives.iter().all(|alt| alt.1 != disc) {
                alternatives.push((rng.below(4) as u16, disc, rng.below(5) as u16));
            }
        }
        _ if !alternatives.is_empty() => alternatives[at].2 = payload(rng, draft),
        _ => {}
    }
}

fn twist_record(rng: &mut Rng, draft: &mut Draft, fields: &mut Vec<(u16, u16)>) {
    let at = rng.below(fields.len());
    match rng.below(7) {
        0..3 => rng.shuffle(fields),
        3 if !fields.is_empty() => {
            let name = rng.below(4) as u16;
            if fields.iter().all(|field| field.0 != name) {
                fields[at].0 = name;
            }
        }
        4 if !fields.is_empty() => fields[at].1 = rng.below(draft.types.len().min(5)) as u16,
        5 if !fields.is_empty() => drop(fields.remove(at)),
        _ if !fields.is_empty() => fields[at].1 = payload(rng, draft),
        _ => {}
    }
}

/// Inferred records beside declared ones: fields in another order, renamed, repeated,
/// left out.
pub fn records(rng: &mut Rng) -> Draft {
    let mut draft = Draft::new();
    for word in ["a", "b", "c", "d", "r", "s", "t", "x", "y"] {
        draft.name(word);
    }
    draft.types.extend([Shape::Int, Shape::Str]);
    let mut fields = grow::fields(rng, 4, 2, 3);
    for _ in 0..2 {
        let ty = draft.ty(Shape::Record(fields.clone()));
        draft.predicate(0, ty, None);
        twist_record(rng, &mut draft, &mut fields);
    }
    for _ in 0..rng.between(2, 6) {
        let left = draft.var(4 + rng.below(3) as u16);
        let stmt = match rng.below(8) {
            0 | 1 => Stmt::Implicit(draft.node(Expr::Fact(rng.below(2) as u32, left))),
            2 => Stmt::Compare(left, draft.var(4 + rng.below(3) as u16)),
            3 => Stmt::Bind(left, draft.var(4 + rng.below(3) as u16)),
            4 => Stmt::Deny(left, inferred(rng, &mut draft, &fields)),
            _ => Stmt::Bind(left, inferred(rng, &mut draft, &fields)),
        };
        draft.body.push(stmt);
    }
    let parts = (4..9).map(|name| (name, draft.var(name))).collect();
    draft.head = draft.node(Expr::Record(parts));
    draft
}

fn inferred(rng: &mut Rng, draft: &mut Draft, fields: &[(u16, u16)]) -> u16 {
    let mut fields = fields.to_vec();
    rng.shuffle(&mut fields);
    if !fields.is_empty() {
        let (at, from) = (rng.below(fields.len()), rng.below(fields.len()));
        match rng.below(8) {
            0 | 1 => fields[at] = fields[from],
            2 => fields[at].0 = rng.below(4) as u16,
            3 => drop(fields.remove(at)),
            4 => fields.push(fields[at]),
            _ => {}
        }
    }
    let parts = fields
        .into_iter()
        .map(|(name, ty)| {
            let expr = match rng.below(6) {
                0 | 1 => Expr::Var(7 + rng.below(2) as u16),
                2 => Expr::Wildcard,
                _ if ty == 0 => Expr::Int,
                _ => Expr::Str,
            };
            (name, draft.node(expr))
        })
        .collect();
    draft.node(Expr::Record(parts))
}

/// Reads of every kind from every kind of base.
pub fn accesses(rng: &mut Rng) -> Draft {
    let mut draft = Draft::new();
    for word in ["value", "a", "b", "x", "y", "z", "w"] {
        draft.name(word);
    }
    if rng.chance(15) {
        draft.names[0] = b"Value".to_vec();
    }
    draft.types.extend([Shape::Int, Shape::Str, Shape::Bytes]);
    for fact in 0..rng.between(1, 4) {
        draft.ty(Shape::Fact(fact as u32));
    }
    for _ in 0..rng.between(1, 3) {
        let types = draft.types.len();
        let mut fields = grow::fields(rng, 3, types, 3);
        if rng.chance(30) && fields.iter().all(|field| field.0 != 0) {
            fields.push((0, rng.below(types) as u16));
        }
        draft.ty(Shape::Record(fields));
        let alternatives = grow::alternatives(rng, 3, types, 3);
        draft.ty(Shape::Union(alternatives));
    }
    let types = draft.types.len();
    for _ in 0..rng.between(1, 4) {
        let value = rng.chance(60).then(|| rng.below(types) as u16);
        draft.predicate(0, rng.below(types) as u16, value);
    }
    let variables = 4;
    for name in 3..3 + variables as u16 {
        let predicate = rng.below(draft.predicates.len() + 1) as u32;
        let left = draft.var(name);
        match rng.below(5) {
            0 => {
                let fact = draft.node(Expr::Fact(predicate, left));
                draft.body.push(Stmt::Implicit(fact));
            }
            1 => {
                // A field may come twice, with different types.
                let parts = [Expr::Int, Expr::Str, Expr::Wildcard]
                    .map(|expr| (rng.below(3) as u16, draft.node(expr)));
                let record = draft.node(Expr::Record(parts.to_vec()));
                draft.bind(left, record);
            }
            2 => {
                let right = term(rng, &mut draft, 0);
                draft.bind(left, right);
            }
            _ => {
                let key = draft.node(Expr::Wildcard);
                let fact = draft.node(Expr::Fact(predicate, key));
                draft.bind(left, fact);
            }
        }
    }
    for _ in 0..rng.between(1, 5) {
        let mut at = draft.var(3 + rng.below(variables) as u16);
        for _ in 0..rng.between(1, 3) {
            let name = rng.below(3) as u16;
            at = draft.node(match rng.below(5) {
                0 | 1 => Expr::Key(name, at),
                2 | 3 => Expr::Value(at),
                _ => Expr::Select(name, at),
            });
        }
        let left = draft.var(3 + rng.below(variables) as u16);
        draft.body.push(match rng.below(4) {
            0 => Stmt::Compare(left, at),
            1 => Stmt::Implicit(at),
            _ => Stmt::Bind(left, at),
        });
    }
    draft.head = draft.var(3);
    draft
}

/// Fuzzy terms around both limits, with characters of one to four bytes.
pub fn fuzzy(rng: &mut Rng) -> Draft {
    let mut draft = Draft::new();
    draft.distance = rng.pick(&[0, 1, 2, 2, 3, 254, 255]);
    draft.term = rng.pick(&[0, 1, 2, 3, 4, 5, 0x0100, 0x0102, 0xffff]);
    let characters: [&[u8]; 8] = [
        b"a",
        b"\x00",
        b"\x7f",
        "\u{80}".as_bytes(),
        "\u{7ff}".as_bytes(),
        "\u{20ac}".as_bytes(),
        "\u{ffff}".as_bytes(),
        "\u{10ffff}".as_bytes(),
    ];
    for _ in 0..rng.between(1, 4) {
        let length = match rng.below(12) {
            0 if draft.term <= 0x0102 => {
                draft.term as usize - rng.below(2).min(draft.term as usize)
            }
            _ => (draft.term.min(4) as usize + rng.below(3)).saturating_sub(1),
        };
        let only = rng.chance(30).then(|| rng.pick(&characters));
        let text: Vec<u8> = (0..length)
            .flat_map(|_| only.unwrap_or_else(|| rng.pick(&characters)))
            .copied()
            .take(511)
            .collect();
        if std::str::from_utf8(&text).is_ok() && !draft.names.contains(&text) {
            draft.names.push(text);
        }
    }
    if draft.names.is_empty() {
        draft.name("a");
    }
    let names = draft.names.len();
    for _ in 0..rng.between(1, 5) {
        let near = draft
            .distance
            .wrapping_add(rng.below(3) as u8)
            .wrapping_sub(1);
        let distance = if rng.chance(30) { 0 } else { near };
        let fuzzy = draft.node(Expr::Fuzzy(rng.below(names) as u16, distance));
        let left = match rng.below(4) {
            0 => draft.node(Expr::Wildcard),
            1 => draft.node(Expr::Int),
            _ => draft.var(rng.below(names) as u16),
        };
        draft.body.push(match rng.below(5) {
            0 => Stmt::Implicit(fuzzy),
            1 => Stmt::Bind(fuzzy, left),
            2 => Stmt::Compare(left, fuzzy),
            _ => Stmt::Bind(left, fuzzy),
        });
    }
    draft.head = draft.node(Expr::Prefix(rng.below(names) as u16));
    draft
}

/// Each shape on the left of a bind or a denial, against each on the right.
pub fn left_sides(rng: &mut Rng) -> Draft {
    let mut draft = Draft::new();
    for word in ["x", "y", "a", "b"] {
        draft.name(word);
    }
    draft.ty(Shape::Int);
    draft.ty(Shape::Record(vec![(2, 0), (3, 0)]));
    draft.ty(Shape::Union(vec![(2, 1, 0), (3, 0, 1)]));
    draft.predicate(0, 1, Some(2));
    draft.predicate(0, 2, None);
    for _ in 0..rng.between(1, 4) {
        let left = shallow(rng, &mut draft, 2);
        let right = shallow(rng, &mut draft, 2);
        draft.body.push(match rng.below(5) {
            0 | 1 => Stmt::Bind(left, right),
            2 | 3 => Stmt::Deny(left, right),
            _ => Stmt::Compare(left, right),
        });
    }
    draft.head = shallow(rng, &mut draft, 1);
    draft
}

fn shallow(rng: &mut Rng, draft: &mut Draft, depth: usize) -> u16 {
    let name = rng.below(4) as u16;
    let shape = if depth == 0 {
        rng.below(8)
    } else {
        rng.below(18)
    };
    let mut under = |rng: &mut Rng| shallow(rng, draft, depth.saturating_sub(1));
    let expr = match shape {
        0 => Expr::Int,
        1 => Expr::Str,
        2 => Expr::Bytes,
        3 => Expr::Wildcard,
        4 => Expr::Never,
        5 => Expr::Prefix(name),
        6 => Expr::Error,
        7 | 8 => Expr::Var(name),
        9 => Expr::Fuzzy(name, rng.below(4) as u8),
        10 | 11 => {
            let parts = (0..rng.below(3))
                .map(|_| (2 + rng.below(2) as u16, under(rng)))
                .collect();
            Expr::Record(parts)
        }
        12 => Expr::Key(name, under(rng)),
        13 => Expr::Value(under(rng)),
        14 => {
            let branches = (0..rng.below(3)).map(|_| under(rng)).collect();
            Expr::Disjunction(branches)
        }
        15 => Expr::Fact(rng.below(3) as u32, under(rng)),
        16 => {
            let operands = (0..rng.below(3)).map(|_| under(rng)).collect();
            Expr::Arith(operands)
        }
        _ => {
            let head = under(rng);
            Expr::Subquery(head, Vec::new())
        }
    };
    draft.node(expr)
}

/// Facts whose fields introduce names and fail, and then use the names again.
pub fn rollbacks(rng: &mut Rng) -> Draft {
    let mut draft = Draft::new();
    for word in ["x", "y", "z", "a", "b", "c"] {
        draft.name(word);
    }
    draft.types.extend([Shape::Int, Shape::Str]);
    let inner = draft.ty(Shape::Record(vec![(3, 0), (4, 1)]));
    draft.ty(Shape::Union(vec![(3, 1, 0), (4, 0, inner)]));
    draft.ty(Shape::Fact(0));
    let fields = (3..6).map(|name| (name, rng.below(5) as u16)).collect();
    let key = draft.ty(Shape::Record(fields));
    draft.predicate(0, key, None);
    draft.predicate(1, rng.below(5) as u16, Some(key));
    for _ in 0..rng.between(1, 4) {
        let fact = faulty_fact(rng, &mut draft, 3);
        let stmt = match rng.below(4) {
            0 => Stmt::Negation(fact),
            1 => Stmt::Bind(draft.var(rng.below(3) as u16), fact),
            _ => Stmt::Implicit(fact),
        };
        draft.body.push(stmt);
        if rng.chance(40) {
            let left = draft.var(rng.below(3) as u16);
            let right = some_term(rng, &mut draft, 1);
            draft.bind(left, right);
        }
    }
    let parts = (0..3).map(|name| (name, draft.var(name))).collect();
    draft.head = draft.node(Expr::Record(parts));
    draft
}

fn faulty_fact(rng: &mut Rng, draft: &mut Draft, depth: usize) -> u16 {
    let key = match rng.below(4) {
        0 => some_term(rng, draft, depth),
        _ => {
            let parts = (0..rng.between(1, 3))
                .map(|_| (3 + rng.below(3) as u16, some_term(rng, draft, depth)))
                .collect();
            draft.node(Expr::Record(parts))
        }
    };
    draft.node(Expr::Fact(rng.below(2) as u32, key))
}

fn some_term(rng: &mut Rng, draft: &mut Draft, depth: usize) -> u16 {
    let shape = if depth == 0 {
        rng.below(6)
    } else {
        rng.below(13)
    };
    let expr = match shape {
        0..3 => Expr::Var(rng.below(3) as u16),
        3 => Expr::Int,
        4 => Expr::Str,
        5 => Expr::Wildcard,
        6 | 7 => {
            let parts = (0..rng.between(1, 2))
                .map(|_| (3 + rng.below(3) as u16, some_term(rng, draft, depth - 1)))
                .collect();
            Expr::Record(parts)
        }
        8 => {
            let branches = (0..rng.between(1, 2))
                .map(|_| some_term(rng, draft, depth - 1))
                .collect();
            Expr::Disjunction(branches)
        }
        9 => {
            let left = draft.var(rng.below(3) as u16);
            let right = some_term(rng, draft, depth - 1);
            let head = some_term(rng, draft, depth - 1);
            Expr::Subquery(head, vec![Stmt::Bind(left, right)])
        }
        10 => {
            let operands = (0..rng.between(1, 2))
                .map(|_| some_term(rng, draft, depth - 1))
                .collect();
            Expr::Arith(operands)
        }
        11 => Expr::Key(3 + rng.below(3) as u16, some_term(rng, draft, depth - 1)),
        _ => return faulty_fact(rng, draft, depth - 1),
    };
    draft.node(expr)
}
