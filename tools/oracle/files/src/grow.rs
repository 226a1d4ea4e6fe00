//! Grows queries that mean something: patterns are made for the type that their place
//! wants, variables are used again where their type fits, and now and then something
//! else is put there.

use crate::draft::{Draft, Expr, Shape, Stmt};
use crate::rng::Rng;

/// How a style wants its queries, in parts of a hundred.
#[derive(Clone, Copy)]
pub struct Taste {
    /// Something that does not fit its place.
    pub misfits: usize,
    /// Error nodes and absent predicates among the misfits.
    pub poison: usize,
    /// Subqueries and disjunctions around a value.
    pub scopes: usize,
    /// Accesses and selects instead of a value.
    pub paths: usize,
    /// Variables and wildcards instead of a value.
    pub variables: usize,
    /// Statements with any two sides.
    pub odd_statements: usize,
    pub statements: usize,
    pub nodes: usize,
}

pub const CALM: Taste = Taste {
    misfits: 3,
    poison: 10,
    scopes: 8,
    paths: 25,
    variables: 45,
    odd_statements: 3,
    statements: 5,
    nodes: 50,
};

const WORDS: [&str; 13] = [
    "a", "b", "c", "d", "value", "x", "y", "z", "name", "", "id", "A", "of",
];

pub struct Grower<'a> {
    pub rng: &'a mut Rng,
    pub draft: Draft,
    taste: Taste,
    /// Names in scope, each with the type that it was first used at.
    known: Vec<(u16, Option<u16>)>,
}

/// A query over a schema of its own.
pub fn grown(rng: &mut Rng, taste: Taste) -> Draft {
    let mut draft = Draft::new();
    schema(rng, &mut draft);
    if rng.chance(10) {
        draft.distance = rng.pick(&[0, 1, 2, 255]);
        draft.term = rng.pick(&[0, 1, 2, 4]);
    }
    over(rng, draft, taste)
}

/// A query over the schema that a draft already has.
pub fn over(rng: &mut Rng, draft: Draft, taste: Taste) -> Draft {
    let mut grower = Grower {
        rng,
        draft,
        taste,
        known: Vec::new(),
    };
    grower.query();
    grower.draft
}

/// Scalars, then records, unions and facts over what is there, then predicates.
pub fn schema(rng: &mut Rng, draft: &mut Draft) {
    for _ in 0..rng.between(3, 8) {
        let word = rng.pick(&WORDS);
        draft.name(word);
    }
    let names = draft.names.len();
    draft.types.extend([Shape::Int, Shape::Str, Shape::Bytes]);
    let predicates = rng.between(1, 4);
    for _ in 0..rng.between(1, 6) {
        let shape = match rng.weighted(&[25, 50, 25]) {
            0 => {
                let absent = rng.chance(8) as usize;
                // Now and then its look-alike above 65,535.
                let above = if rng.chance(6) { 0x1_0000 } else { 0 };
                Shape::Fact(above | rng.below(predicates + absent) as u32)
            }
            1 => Shape::Record(fields(rng, names, draft.types.len(), 3)),
            _ => Shape::Union(alternatives(rng, names, draft.types.len(), 3)),
        };
        draft.types.push(shape);
    }
    for _ in 0..predicates {
        let types = draft.types.len();
        let records: Vec<usize> = (0..types)
            .filter(|&at| matches!(draft.types[at], Shape::Record(_)))
            .collect();
        let key = if records.is_empty() || rng.chance(25) {
            rng.below(types)
        } else {
            rng.pick(&records)
        };
        let value = rng.chance(50).then(|| rng.below(types) as u16);
        let name = rng.below(names) as u16;
        draft.predicate(name, key as u16, value);
    }
}

/// Fields of different names over the types so far.
pub fn fields(rng: &mut Rng, names: usize, types: usize, most: usize) -> Vec<(u16, u16)> {
    let mut free: Vec<u16> = (0..names as u16).collect();
    rng.shuffle(&mut free);
    free.truncate(rng.between(0, most.min(names)));
    free.into_iter()
        .map(|name| (name, rng.below(types) as u16))
        .collect()
}

pub const DISCRIMINANTS: [u32; 10] = [
    0,
    1,
    2,
    3,
    7,
    0x0001_0000,
    0x0001_0001,
    0x7fff_ffff,
    0x8000_0000,
    0xffff_ffff,
];

/// Alternatives of different discriminants; a name may come again.
pub fn alternatives(
    rng: &mut Rng,
    names: usize,
    types: usize,
    most: usize,
) -> Vec<(u16, u32, u16)> {
    let mut discs = DISCRIMINANTS;
    rng.shuffle(&mut discs);
    let count = rng.between(0, most);
    discs[..count]
        .iter()
        .map(|&disc| (rng.below(names) as u16, disc, rng.below(types) as u16))
        .collect()
}

impl Grower<'_> {
    fn query(&mut self) {
        for _ in 0..self.rng.between(1, self.taste.statements) {
            let stmt = self.statement(2);
            self.draft.body.push(stmt);
        }
        self.draft.head = match self.rng.weighted(&[50, 25, 5, 20]) {
            0 => self.variable(None),
            1 => {
                let fields = (0..self.rng.between(0, 3))
                    .map(|_| (self.any_name(), self.variable(None)))
                    .collect();
                self.draft.node(Expr::Record(fields))
            }
            2 => self.draft.node(Expr::Wildcard),
            _ => self.value(None, 2),
        };
        if self.rng.chance(3) {
            self.draft.node(Expr::Int);
        }
        if self.rng.chance(5) {
            for at in 0..self.draft.nodes.len() {
                self.draft.nodes[at].0 = self.rng.next() as u32;
                self.draft.nodes[at].1 = self.rng.next() as u32;
            }
        }
    }

    fn room(&self) -> bool {
        self.draft.nodes.len() < self.taste.nodes
    }

    fn any_name(&mut self) -> u16 {
        self.rng.below(self.draft.names.len()) as u16
    }

    fn any_type(&mut self) -> Option<u16> {
        let types = self.draft.types.len();
        (types > 0).then(|| self.rng.below(types) as u16)
    }

    fn statement(&mut self, depth: usize) -> Stmt {
        if self.rng.chance(self.taste.odd_statements) {
            let left = self.value(None, 1);
            return match self.rng.below(5) {
                0 => Stmt::Bind(left, self.value(None, 1)),
                1 => Stmt::Implicit(left),
                2 => Stmt::Negation(left),
                3 => Stmt::Deny(left, self.value(None, 1)),
                _ => Stmt::Compare(left, self.value(None, 1)),
            };
        }
        let goal = self.any_type();
        match self.rng.weighted(&[40, 6, 8, 15, 6, 6, 3, 5, 11]) {
            0 => Stmt::Implicit(self.fact(depth)),
            1 => {
                let branches = (0..self.rng.between(0, 3))
                    .map(|_| self.branch(depth))
                    .collect();
                Stmt::Implicit(self.draft.node(Expr::Disjunction(branches)))
            }
            2 => Stmt::Negation(self.fact(depth)),
            3 => {
                let left = self.variable(goal);
                Stmt::Bind(left, self.value(goal, depth))
            }
            4 => {
                let predicate = self.predicate();
                let goal = self.fact_type(predicate);
                let left = self.variable(goal);
                Stmt::Bind(left, self.fact_of(predicate, depth))
            }
            5 => {
                let left = self.target(goal, 2);
                Stmt::Bind(left, self.value(goal, depth))
            }
            6 => {
                let left = self.draft.node(Expr::Wildcard);
                Stmt::Bind(left, self.value(goal, depth))
            }
            7 => {
                let left = self.variable(goal);
                Stmt::Deny(left, self.value(goal, depth))
            }
            _ => {
                let left = self.value(goal, 1);
                Stmt::Compare(left, self.value(goal, 1))
            }
        }
    }

    /// A fact, or some of them again.
    fn branch(&mut self, depth: usize) -> u16 {
        if self.rng.chance(75) {
            return self.fact(depth);
        }
        let branches = (0..self.rng.between(0, 3))
            .map(|_| self.fact(depth))
            .collect();
        self.draft.node(Expr::Disjunction(branches))
    }

    /// A record of variables and wildcards, for the left of a bind.
    fn target(&mut self, goal: Option<u16>, depth: usize) -> u16 {
        let fields = match goal.map(|at| &self.draft.types[at as usize]) {
            Some(Shape::Record(fields)) => fields.clone(),
            _ => (0..self.rng.below(3))
                .map(|_| (self.any_name(), 0))
                .collect(),
        };
        let parts = fields
            .into_iter()
            .map(|(name, ty)| {
                let ty = Some(ty).filter(|&ty| (ty as usize) < self.draft.types.len());
                let node = match self.rng.weighted(&[65, 15, 15, 5]) {
                    2 if depth > 0 => self.target(ty, depth - 1),
                    1 => self.draft.node(Expr::Wildcard),
                    3 => self.draft.node(Expr::Int),
                    _ => self.variable(ty),
                };
                (name, node)
            })
            .collect();
        self.draft.node(Expr::Record(parts))
    }

    fn predicate(&mut self) -> u32 {
        let count = self.draft.predicates.len();
        if count == 0
            || self
                .rng
                .chance(self.taste.misfits * self.taste.poison / 100)
        {
            let absent = [
                count as u32,
                200,
                0xffff,
                0x1_0000,
                0x1_0001,
                0x82_0000,
                u32::MAX,
            ];
            return self.rng.pick(&absent);
        }
        self.rng.below(count) as u32
    }

    /// The type number of that predicate's facts, if the schema has one.
    fn fact_type(&self, predicate: u32) -> Option<u16> {
        let at = self
            .draft
            .types
            .iter()
            .position(|shape| matches!(shape, Shape::Fact(of) if *of == predicate));
        at.map(|at| at as u16)
    }

    fn fact(&mut self, depth: usize) -> u16 {
        let predicate = self.predicate();
        self.fact_of(predicate, depth)
    }

    fn fact_of(&mut self, predicate: u32, depth: usize) -> u16 {
        let key = self.draft.predicates.get(predicate as usize).map(|p| p.1);
        let key = self.pattern(key, depth);
        self.draft.node(Expr::Fact(predicate, key))
    }

    /// A pattern where a type is expected: records name some of the fields.
    fn pattern(&mut self, goal: Option<u16>, depth: usize) -> u16 {
        let misfit = self.rng.chance(self.taste.misfits);
        let fields = match goal.map(|at| &self.draft.types[at as usize]) {
            _ if misfit || depth == 0 || !self.room() => return self.value(goal, depth),
            Some(Shape::Record(fields)) if self.rng.chance(85) => fields.clone(),
            Some(Shape::Union(alternatives)) if self.rng.chance(70) => {
                let mut some: Vec<(u16, u16)> =
                    alternatives.iter().map(|alt| (alt.0, alt.2)).collect();
                self.rng.shuffle(&mut some);
                let count = self.rng.weighted(&[2, 94, 4]);
                some.truncate(count);
                some
            }
            _ => return self.value(goal, depth),
        };
        let mut parts = Vec::new();
        for (name, ty) in fields {
            if self.rng.chance(80) {
                parts.push((name, self.pattern(Some(ty), depth - 1)));
            }
            if self.rng.chance(self.taste.misfits) {
                parts.push((self.any_name(), self.pattern(Some(ty), depth - 1)));
            }
        }
        if self.rng.chance(40) {
            self.rng.shuffle(&mut parts);
        }
        self.draft.node(Expr::Record(parts))
    }

    /// A value of a type, or of any where none is wanted.
    fn value(&mut self, goal: Option<u16>, depth: usize) -> u16 {
        let goal = if self.rng.chance(self.taste.misfits) {
            if self.rng.chance(self.taste.poison) {
                return self.draft.node(Expr::Error);
            }
            self.any_type()
        } else {
            goal
        };
        if self.rng.chance(self.taste.variables) || !self.room() {
            return match self.rng.weighted(&[82, 14, 4]) {
                0 => self.variable(goal),
                1 => self.draft.node(Expr::Wildcard),
                _ => self.draft.node(Expr::Never),
            };
        }
        if depth > 0
            && self.rng.chance(self.taste.paths)
            && let Some(node) = self.path(goal)
        {
            return node;
        }
        if depth > 0 && self.rng.chance(self.taste.scopes) {
            return self.scope(goal, depth - 1);
        }
        self.built(goal, depth)
    }

    fn scope(&mut self, goal: Option<u16>, depth: usize) -> u16 {
        if self.rng.chance(50) {
            let branches = (0..self.rng.between(0, 3))
                .map(|_| self.value(goal, depth))
                .collect();
            return self.draft.node(Expr::Disjunction(branches));
        }
        let outer = self.known.clone();
        let body = (0..self.rng.below(3))
            .map(|_| self.statement(depth.min(1)))
            .collect();
        let head = self.value(goal, depth);
        if self.rng.chance(70) {
            self.known = outer;
        }
        self.draft.node(Expr::Subquery(head, body))
    }

    fn built(&mut self, goal: Option<u16>, depth: usize) -> u16 {
        let expr = match goal.map(|at| &self.draft.types[at as usize]) {
            None => return self.anything(depth),
            Some(Shape::Int) => match self.rng.below(4) {
                0 if depth > 0 => {
                    let operands = (0..self.rng.between(0, 3))
                        .map(|_| self.value(goal, depth - 1))
                        .collect();
                    Expr::Arith(operands)
                }
                _ => Expr::Int,
            },
            Some(Shape::Str) => match self.rng.below(4) {
                0 => Expr::Prefix(self.any_name()),
                1 => Expr::Fuzzy(
                    self.any_name(),
                    self.rng.pick(&[1, 1, 1, 1, 2, 2, 2, 2, 0, 3]),
                ),
                _ => Expr::Str,
            },
            Some(Shape::Bytes) => Expr::Bytes,
            Some(Shape::Fact(predicate)) => {
                let predicate = *predicate;
                if depth == 0 {
                    return self.draft.node(Expr::Wildcard);
                }
                return self.fact_of(predicate, depth - 1);
            }
            Some(Shape::Record(fields)) => {
                let mut fields = fields.clone();
                if depth == 0 {
                    return self.draft.node(Expr::Wildcard);
                }
                if self.rng.chance(30) {
                    self.rng.shuffle(&mut fields);
                }
                if self.rng.chance(self.taste.misfits) {
                    let at = self.rng.below(fields.len());
                    match (self.rng.below(3), fields.get(at).copied()) {
                        (0, Some(field)) => fields.push(field),
                        (1, Some(_)) => fields[at].0 = self.any_name(),
                        (_, Some(_)) => drop(fields.remove(at)),
                        _ => {}
                    }
                }
                let parts = fields
                    .into_iter()
                    .map(|(name, ty)| (name, self.value(Some(ty), depth - 1)))
                    .collect();
                Expr::Record(parts)
            }
            Some(Shape::Union(_)) => return self.variable(goal),
        };
        self.draft.node(expr)
    }

    fn anything(&mut self, depth: usize) -> u16 {
        if depth == 0 {
            let expr = match self.rng.below(8) {
                0 => Expr::Int,
                1 => Expr::Str,
                2 => Expr::Bytes,
                3 => Expr::Wildcard,
                4 => Expr::Prefix(self.any_name()),
                5 => Expr::Fuzzy(self.any_name(), self.rng.below(4) as u8),
                _ => return self.variable(None),
            };
            return self.draft.node(expr);
        }
        let expr = match self.rng.below(7) {
            0 => {
                let parts = (0..self.rng.below(4))
                    .map(|_| (self.any_name(), self.value(None, depth - 1)))
                    .collect();
                Expr::Record(parts)
            }
            1 => Expr::Key(self.any_name(), self.value(None, depth - 1)),
            2 => Expr::Value(self.value(None, depth - 1)),
            3 => Expr::Select(self.any_name(), self.value(None, depth - 1)),
            4 => return self.fact(depth - 1),
            5 => return self.scope(None, depth - 1),
            _ => return self.anything(0),
        };
        self.draft.node(expr)
    }

    /// A variable known at that type, or a new one.
    fn variable(&mut self, goal: Option<u16>) -> u16 {
        let fitting: Vec<u16> = self
            .known
            .iter()
            .filter(|(_, ty)| goal.is_none() || *ty == goal)
            .map(|(name, _)| *name)
            .collect();
        let name = if !fitting.is_empty() && self.rng.chance(70) {
            self.rng.pick(&fitting)
        } else if self.rng.chance(75) {
            self.new_name()
        } else {
            self.any_name()
        };
        if !self.known.iter().any(|(known, _)| *known == name) {
            self.known.push((name, goal));
        }
        self.draft.var(name)
    }

    /// A name that is not in scope, as long as there are not too many.
    fn new_name(&mut self) -> u16 {
        let free: Vec<u16> = (0..self.draft.names.len() as u16)
            .filter(|name| !self.known.iter().any(|(known, _)| known == name))
            .collect();
        if !free.is_empty() {
            return self.rng.pick(&free);
        }
        let count = self.draft.names.len();
        if count > 40 {
            return self.any_name();
        }
        self.draft.name(&format!("v{count}"))
    }

    /// Reads from a variable down to the type wanted, where a short walk gets there.
    fn path(&mut self, goal: Option<u16>) -> Option<u16> {
        for _ in 0..4 {
            if self.known.is_empty() {
                return None;
            }
            let (name, mut at) = self.known[self.rng.below(self.known.len())];
            let mut steps = Vec::new();
            for _ in 0..self.rng.between(1, 3) {
                let Some((step, next)) = at.and_then(|at| self.step(at)) else {
                    break;
                };
                steps.push(step);
                at = Some(next);
                if goal.is_none() || at == goal {
                    break;
                }
            }
            if steps.is_empty() || goal.is_some() && at != goal && !self.rng.chance(10) {
                continue;
            }
            let mut node = self.draft.var(name);
            for (shape, name) in steps {
                node = self.draft.node(match shape {
                    0 => Expr::Key(name, node),
                    1 => Expr::Value(node),
                    _ => Expr::Select(name, node),
                });
            }
            return Some(node);
        }
        None
    }

    /// One step from a type: a field, the value, or an alternative.
    fn step(&mut self, at: u16) -> Option<((u8, u16), u16)> {
        match &self.draft.types[at as usize] {
            Shape::Record(fields) if !fields.is_empty() => {
                let (name, ty) = self.rng.pick(fields);
                Some(((0, name), ty))
            }
            Shape::Union(alternatives) if !alternatives.is_empty() => {
                let (name, _, ty) = self.rng.pick(alternatives);
                Some(((2, name), ty))
            }
            Shape::Fact(predicate) => {
                let &(_, key, value) = self.draft.predicates.get(*predicate as usize)?;
                if let Some(value) = value
                    && self.rng.chance(40)
                {
                    return Some(((1, 0), value));
                }
                match &self.draft.types[key as usize] {
                    Shape::Record(fields) if !fields.is_empty() => {
                        let (name, ty) = self.rng.pick(fields);
                        Some(((0, name), ty))
                    }
                    _ => None,
                }
            }
            _ => None,
        }
    }
}
