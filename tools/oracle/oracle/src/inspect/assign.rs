//! Which assignments of finite types respect bindings. Types that are equal up to order of fields and alternatives have
//! one number.

use std::collections::HashMap;
use std::sync::Arc;

use files::Rng;
use judge::entries::{Kind, Node, Part, Term};

use super::run::Binding;

#[derive(Clone, PartialEq, Eq, Hash)]
enum Type {
    Int,
    String,
    Bytes,
    Error,
    Fact(u32),
    /// Its parts by key, label and number, in order.
    Node(Kind, Vec<(u32, u32, usize)>),
}

/// The finite types by number, and what stands for each closed part of the bindings.
#[derive(Default)]
pub struct Types {
    numbers: HashMap<Type, usize>,
    types: Vec<Type>,
    closed: HashMap<*const Node, usize>,
    /// Nodes whose address is a key.
    kept: Vec<Arc<Node>>,
}

/// A type's number for each unknown.
pub type Assignment = Vec<usize>;

impl Types {
    fn number(&mut self, of: Type) -> usize {
        if let Some(number) = self.numbers.get(&of) {
            return *number;
        }
        let number = self.types.len();
        self.types.push(of.clone());
        self.numbers.insert(of, number);
        number
    }

    fn node(&mut self, kind: Kind, mut parts: Vec<(u32, u32, usize)>) -> usize {
        parts.sort_unstable();
        self.number(Type::Node(kind, parts))
    }

    fn random(&mut self, rng: &mut Rng, depth: usize) -> usize {
        let of = match rng.below(if depth == 0 { 5 } else { 8 }) {
            0 => Type::Int,
            1 => Type::String,
            2 => Type::Bytes,
            3 => Type::Fact(rng.below(4) as u32),
            4 if rng.chance(20) => Type::Error,
            4 => Type::Int,
            more => {
                let mut parts = vec![];
                for key in 0..rng.below(4) as u32 {
                    let of = self.random(rng, depth - 1);
                    let label = if more == 7 { rng.below(3) as u32 } else { 0 };
                    parts.push((key, label, of));
                }
                let kind = if more == 7 { Kind::Union } else { Kind::Record };
                return self.node(kind, parts);
            }
        };
        self.number(of)
    }

    /// A type that differs in one place from this.
    fn other(&mut self, rng: &mut Rng, number: usize) -> usize {
        if let Type::Node(kind, mut parts) = self.types[number].clone()
            && !parts.is_empty()
        {
            let place = rng.below(parts.len());
            match rng.below(6) {
                0 => {
                    parts.remove(place);
                }
                1 => parts[place].0 ^= 1,
                2 if kind == Kind::Union => parts[place].1 ^= 1,
                _ => parts[place].2 = self.other(rng, parts[place].2),
            }
            return self.node(kind, parts);
        }
        if let Type::Fact(predicate) = self.types[number]
            && rng.chance(50)
        {
            return self.number(Type::Fact(predicate ^ 1));
        }
        loop {
            let made = self.random(rng, 1);
            if made != number {
                return made;
            }
        }
    }

    /// What a type becomes; none where it names an unknown that there is not.
    fn applied(&mut self, to: &Assignment, term: &Term, open: &mut HashMap<*const Node, usize>) -> Option<usize> {
        let of = match term {
            Term::Int => Type::Int,
            Term::String => Type::String,
            Term::Bytes => Type::Bytes,
            Term::Error => Type::Error,
            Term::Fact(predicate) => Type::Fact(*predicate),
            Term::Unknown(x) => return to.get(*x as usize).copied(),
            Term::Node(node) => {
                let at = Arc::as_ptr(node);
                let known = if node.open { open.get(&at) } else { self.closed.get(&at) };
                if let Some(known) = known {
                    return Some(*known);
                }
                let mut parts = vec![];
                for Part { key, label, of } in &node.parts {
                    parts.push((*key, *label, self.applied(to, of, open)?));
                }
                let made = self.node(node.kind, parts);
                if node.open {
                    open.insert(at, made);
                } else {
                    self.closed.insert(at, made);
                    self.kept.push(node.clone());
                }
                return Some(made);
            }
        };
        Some(self.number(of))
    }

    /// Every bound unknown has the type that it is bound to.
    fn respects(&mut self, to: &Assignment, bindings: &[Binding]) -> bool {
        let mut open = HashMap::new();
        bindings.iter().all(|(x, bound)| {
            let of = to.get(*x as usize).copied();
            of.is_some() && of == self.applied(to, bound, &mut open)
        })
    }

    /// Random types for the free unknowns, and for the bound ones what their bindings ask for, followed as often as
    /// one stands in another's.
    fn respecting(&mut self, rng: &mut Rng, unknowns: usize, bindings: &[Binding]) -> Assignment {
        let mut to: Assignment = (0..unknowns).map(|_| self.random(rng, 2)).collect();
        let bound: HashMap<u32, &Term> = bindings.iter().map(|(x, of)| (*x, of)).collect();
        let mut done = vec![false; unknowns];
        for x in 0..unknowns as u32 {
            self.follow(x, &bound, &mut to, &mut done);
        }
        to
    }

    fn follow(&mut self, x: u32, bound: &HashMap<u32, &Term>, to: &mut Assignment, done: &mut [bool]) {
        // An unknown that leads back to itself, as a wrong solver may bind it, keeps its random type there.
        if done.get(x as usize).copied().unwrap_or(true) {
            return;
        }
        done[x as usize] = true;
        let Some(of) = bound.get(&x) else {
            return;
        };
        let mut named = vec![];
        unknowns(of, &mut named);
        for y in named {
            self.follow(y, bound, to, done);
        }
        if let Some(of) = self.applied(to, of, &mut HashMap::new()) {
            to[x as usize] = of;
        }
    }
}

fn unknowns(term: &Term, into: &mut Vec<u32>) {
    match term {
        Term::Unknown(x) => into.push(*x),
        Term::Node(node) if node.open => node.parts.iter().for_each(|part| unknowns(&part.of, into)),
        _ => {}
    }
}

/// What was compared over random assignments.
#[derive(Default)]
pub struct Compared {
    pub assignments: u64,
    /// Those that respect both lists of bindings.
    pub respecting: u64,
}

/// Whether over random assignments both lists are respected by the same ones.
pub fn alike(seed: u64, unknowns: usize, rusts: &[Binding], found: &[Binding], compared: &mut Compared) -> bool {
    let rng = &mut Rng::new(seed);
    let types = &mut Types::default();
    let mut tried: Vec<Assignment> = vec![];
    for bindings in [rusts, found, rusts, found] {
        tried.push(types.respecting(rng, unknowns, bindings));
    }
    tried.push((0..unknowns).map(|_| types.random(rng, 2)).collect());
    if unknowns > 0 {
        for at in 0..4 {
            let mut to = tried[at].clone();
            // A bound unknown, if there is one, or any; another's type, or one that differs in one place.
            let x = match rusts.len() {
                0 => rng.below(unknowns),
                _ if rng.chance(30) => rng.below(unknowns),
                some => rusts[rng.below(some)].0 as usize,
            };
            to[x] = match rng.chance(30) {
                true => to[rng.below(unknowns)],
                false => types.other(rng, to[x]),
            };
            tried.push(to);
        }
    }
    tried.iter().all(|to| {
        let respected = types.respects(to, rusts);
        compared.assignments += 1;
        compared.respecting += u64::from(respected);
        respected == types.respects(to, found)
    })
}
