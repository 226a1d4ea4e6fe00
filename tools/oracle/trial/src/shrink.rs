//! Makes a file smaller while something holds of it.

use judge::{File, Query, Shape, Stmt, Tree, Type};

/// A small file of which `holds` is still true, found by taking parts away.
pub fn shrink(file: &[u8], holds: &mut dyn FnMut(&[u8]) -> bool) -> Vec<u8> {
    let mut best = file.to_vec();
    loop {
        let before = best.len();
        by_tree(&mut best, holds);
        by_lines(&mut best, holds);
        if best.len() >= before {
            return best;
        }
    }
}

/// Takes whole lines away, in falling numbers, and then pairs of digits.
fn by_lines(best: &mut Vec<u8>, holds: &mut dyn FnMut(&[u8]) -> bool) {
    let mut lines: Vec<Vec<u8>> = best
        .split_inclusive(|&b| b == b'\n')
        .map(<[u8]>::to_vec)
        .collect();
    let mut size = lines.len() / 2;
    while size > 0 {
        let mut at = 0;
        while at + size <= lines.len() {
            let mut fewer = lines.clone();
            fewer.drain(at..at + size);
            if holds(&fewer.concat()) {
                lines = fewer;
            } else {
                at += size;
            }
        }
        size /= 2;
    }
    for at in 0..lines.len() {
        let mut place = 2;
        while place + 2 < lines[at].len() && lines[at].len() < 400 {
            let mut fewer = lines.clone();
            fewer[at].drain(place..place + 2);
            if holds(&fewer.concat()) {
                lines = fewer;
            } else {
                place += 2;
            }
        }
    }
    *best = lines.concat();
}

/// Where the file can be read, takes away statements, nodes, parts and what nobody names.
fn by_tree(best: &mut Vec<u8>, holds: &mut dyn FnMut(&[u8]) -> bool) {
    let Ok(mut file) = judge::read(best, &judge::Limits::default()) else {
        return;
    };
    loop {
        let mut smaller = false;
        for change in changes(&file) {
            let Some(next) = change.made(&file) else {
                continue;
            };
            let bytes = judge::encode(&next);
            if holds(&bytes) {
                *best = bytes;
                file = next;
                smaller = true;
                break;
            }
        }
        if !smaller {
            return;
        }
    }
}

enum Change {
    /// A whole query with its nodes.
    Query(usize),
    /// A statement of a query, or of a subquery node of it, by its place.
    Statement(usize, Option<usize>, usize),
    /// A part of a node's list.
    Part(usize, usize, usize),
    /// A field or an alternative.
    Field(usize, usize),
    /// A node becomes a plain literal.
    Plain(usize, usize),
    /// A node becomes what stands under it.
    Hoist(usize, usize),
    /// A number that nobody names goes.
    Node(usize, usize),
    Name(usize),
    Type(usize),
    Predicate(usize),
}

fn changes(file: &File) -> Vec<Change> {
    let mut all = Vec::new();
    if file.trees.len() > 1 {
        all.extend((0..file.trees.len()).map(Change::Query));
    }
    for (of, tree) in file.trees.iter().enumerate() {
        all.extend((0..tree.query.body.len()).map(|at| Change::Statement(of, None, at)));
        for (number, node) in tree.nodes.iter().enumerate() {
            match &node.shape {
                Shape::Subquery(query) => {
                    let statements = 0..query.body.len();
                    all.extend(statements.map(|at| Change::Statement(of, Some(number), at)));
                }
                shape => {
                    let parts = 0..shape.nodes().len();
                    all.extend(parts.map(|at| Change::Part(of, number, at)));
                }
            }
            if node.shape != Shape::Int {
                all.extend([Change::Hoist(of, number), Change::Plain(of, number)]);
            }
            all.push(Change::Node(of, number));
        }
    }
    for (number, ty) in file.types.iter().enumerate() {
        let parts = match ty {
            Type::Record(fields) => fields.len(),
            Type::Union(alternatives) => alternatives.len(),
            _ => 0,
        };
        all.extend((0..parts).map(|at| Change::Field(number, at)));
        all.push(Change::Type(number));
    }
    all.extend((0..file.predicates.len()).map(Change::Predicate));
    all.extend((0..file.names.len()).map(Change::Name));
    all
}

impl Change {
    fn made(&self, file: &File) -> Option<File> {
        let mut next = file.clone();
        match *self {
            Change::Query(of) => drop(next.trees.remove(of)),
            Change::Statement(of, None, at) => drop(next.trees[of].query.body.remove(at)),
            Change::Statement(of, Some(node), at) => {
                let Shape::Subquery(query) = &mut next.trees[of].nodes[node].shape else {
                    return None;
                };
                query.body.remove(at);
            }
            Change::Part(of, node, at) => match &mut next.trees[of].nodes[node].shape {
                Shape::Record(parts) => drop(parts.remove(at)),
                Shape::Disjunction(nodes) | Shape::Arith(nodes) => drop(nodes.remove(at)),
                _ => return None,
            },
            Change::Field(ty, at) => match &mut next.types[ty] {
                Type::Record(fields) => drop(fields.remove(at)),
                Type::Union(alternatives) => drop(alternatives.remove(at)),
                _ => return None,
            },
            Change::Plain(of, node) => next.trees[of].nodes[node].shape = Shape::Int,
            Change::Hoist(of, node) => {
                let nodes = &mut next.trees[of].nodes;
                let under = *nodes[node].shape.nodes().first()?;
                let shape = std::mem::replace(&mut nodes[under as usize].shape, Shape::Int);
                nodes[node].shape = shape;
            }
            Change::Node(of, node) => remove_node(&mut next.trees[of], node as u16)?,
            Change::Name(name) => remove_name(&mut next, name as u16)?,
            Change::Type(ty) => remove_type(&mut next, ty as u16)?,
            Change::Predicate(predicate) => remove_predicate(&mut next, predicate as u16)?,
        }
        Some(next)
    }
}

/// The number after one below it is gone; nothing if it is that one.
fn past<T: Copy + Ord + std::ops::SubAssign + From<u8>>(number: &mut T, gone: T) -> Option<()> {
    match (*number).cmp(&gone) {
        std::cmp::Ordering::Less => {}
        std::cmp::Ordering::Equal => return None,
        std::cmp::Ordering::Greater => *number -= T::from(1),
    }
    Some(())
}

fn remove_node(tree: &mut Tree, gone: u16) -> Option<()> {
    tree.nodes.remove(gone as usize);
    for node in &mut tree.nodes {
        match &mut node.shape {
            Shape::Key(_, at) | Shape::Value(at) | Shape::Fact(_, at) | Shape::Select(_, at) => {
                past(at, gone)?;
            }
            Shape::Record(parts) => parts
                .iter_mut()
                .try_for_each(|part| past(&mut part.1, gone))?,
            Shape::Disjunction(nodes) | Shape::Arith(nodes) => {
                nodes.iter_mut().try_for_each(|at| past(at, gone))?;
            }
            Shape::Subquery(query) => remove_from(query, gone)?,
            _ => {}
        }
    }
    remove_from(&mut tree.query, gone)
}

fn remove_from(query: &mut Query, gone: u16) -> Option<()> {
    past(&mut query.head, gone)?;
    for stmt in &mut query.body {
        match stmt {
            Stmt::Bind(left, right) | Stmt::Deny(left, right) | Stmt::Compare(left, right) => {
                past(left, gone)?;
                past(right, gone)?;
            }
            Stmt::Implicit(at) | Stmt::Negation(at) => past(at, gone)?,
        }
    }
    Some(())
}

/// The nodes of all queries.
fn nodes(file: &mut File) -> impl Iterator<Item = &mut judge::Node> {
    file.trees.iter_mut().flat_map(|tree| &mut tree.nodes)
}

fn remove_name(file: &mut File, gone: u16) -> Option<()> {
    file.names.remove(gone as usize);
    for node in nodes(file) {
        match &mut node.shape {
            Shape::Var(name)
            | Shape::Prefix(name)
            | Shape::Fuzzy(name, _)
            | Shape::Key(name, _)
            | Shape::Select(name, _) => past(name, gone)?,
            Shape::Record(parts) => parts
                .iter_mut()
                .try_for_each(|part| past(&mut part.0, gone))?,
            _ => {}
        }
    }
    for ty in &mut file.types {
        match ty {
            Type::Record(fields) => fields
                .iter_mut()
                .try_for_each(|part| past(&mut part.0, gone))?,
            Type::Union(alternatives) => {
                alternatives
                    .iter_mut()
                    .try_for_each(|part| past(&mut part.0, gone))?;
            }
            _ => {}
        }
    }
    // A predicate's name is in no answer, so another will do.
    for predicate in &mut file.predicates {
        if past(&mut predicate.name, gone).is_none() {
            predicate.name = 0;
        }
    }
    Some(())
}

fn remove_type(file: &mut File, gone: u16) -> Option<()> {
    file.types.remove(gone as usize);
    for ty in &mut file.types {
        match ty {
            Type::Record(fields) => fields
                .iter_mut()
                .try_for_each(|part| past(&mut part.1, gone))?,
            Type::Union(alternatives) => {
                alternatives
                    .iter_mut()
                    .try_for_each(|part| past(&mut part.2, gone))?;
            }
            _ => {}
        }
    }
    for predicate in &mut file.predicates {
        past(&mut predicate.key, gone)?;
        if let Some(value) = &mut predicate.value
            && past(value, gone).is_none()
        {
            predicate.value = None;
        }
    }
    Some(())
}

fn remove_predicate(file: &mut File, gone: u16) -> Option<()> {
    file.predicates.remove(gone as usize);
    for ty in &mut file.types {
        if let Type::Fact(predicate) = ty {
            past(predicate, u32::from(gone))?;
        }
    }
    for node in nodes(file) {
        if let Shape::Fact(predicate, _) = &mut node.shape {
            past(predicate, u32::from(gone))?;
        }
    }
    Some(())
}
