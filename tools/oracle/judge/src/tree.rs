//! From what a file describes to the values that the Rust's `check` takes.

use std::collections::HashMap;
use std::sync::Arc;

use fjord_schema::schema::{
    Alternative, LocalInterner, Predicate, PredicateId, PredicateTy, Schema, Symbol,
};
use lasso::Rodeo;

use crate::file::{self, File, Shape, Stmt, Type};
use crate::levenshtein::FuzzyAnchor;
use crate::syntax::{
    ArithOp, Ast, CompareOp, ExprKind, FieldRef, Literal, NodeId, Query, QueryStmt, SyntaxTree,
};

/// A file's names and schema as the Rust holds them, for all of its queries.
pub struct Base {
    pub schema: Schema,
    pub interner: LocalInterner,
    /// The schema's types, by number in the file.
    pub types: Vec<PredicateTy>,
    /// The Rust's symbol of each name, by number in the file.
    pub symbols: Vec<Symbol>,
    /// The number in the file of each symbol.
    pub numbers: HashMap<Symbol, u16>,
    /// What stands in for a string literal's text: the file has none, and the check reads none.
    literal: Symbol,
}

/// One query as the Rust holds it.
pub struct Tree {
    pub ast: Ast,
    /// The Rust's id of each node, by number in the query.
    pub nodes: Vec<NodeId>,
}

/// The names and the schema.
pub fn base(file: &File) -> Base {
    let texts: Vec<&str> = file
        .names
        .iter()
        .map(|name| std::str::from_utf8(name).expect("a text past refusal 7"))
        .collect();

    // As in the original, names that the schema mentions live in its own interner and the query's
    // other names in a second one over it.
    let of_schema = schema_names(file);
    let mut rodeo = Rodeo::new();
    let spurs: Vec<_> = texts
        .iter()
        .zip(of_schema)
        .map(|(text, named)| named.then(|| rodeo.get_or_intern(text)))
        .collect();
    let spur = |name: u16| spurs[usize::from(name)].expect("a name that the schema mentions");

    let types = schema_types(file, spur);
    let predicates: Arc<[Predicate]> = file
        .predicates
        .iter()
        .map(|predicate| Predicate {
            name: spur(predicate.name),
            key: types[usize::from(predicate.key)].clone(),
            value: predicate
                .value
                .map(|value| types[usize::from(value)].clone()),
        })
        .collect();
    let schema = Schema::new(rodeo.into_reader(), predicates);

    let mut interner = LocalInterner::new(schema.interner().clone());
    let symbols: Vec<Symbol> = texts
        .iter()
        .map(|text| interner.get_or_intern(text))
        .collect();
    let numbers = symbols
        .iter()
        .enumerate()
        .map(|(number, symbol)| (*symbol, number as u16))
        .collect();

    let literal = interner.get_or_intern("");
    Base {
        schema,
        interner,
        types,
        symbols,
        numbers,
        literal,
    }
}

/// A query's tree over names and schema.
pub fn build(tree: &file::Tree, base: &Base) -> Tree {
    let mut store = SyntaxTree::new();
    let mut nodes: Vec<NodeId> = vec![];
    for node in &tree.nodes {
        let kind = kind(&node.shape, &base.symbols, &nodes, base.literal);
        nodes.push(store.push(kind, node.start..node.end));
    }
    let ast = Ast::new(query(&tree.query, &nodes), store);
    Tree { ast, nodes }
}

/// For each name, whether a type or a predicate mentions it.
fn schema_names(file: &File) -> Vec<bool> {
    let mut mentioned = vec![false; file.names.len()];
    for ty in &file.types {
        match ty {
            Type::Record(fields) => {
                for (name, _) in fields {
                    mentioned[usize::from(*name)] = true;
                }
            }
            Type::Union(alternatives) => {
                for (name, _, _) in alternatives {
                    mentioned[usize::from(*name)] = true;
                }
            }
            _ => {}
        }
    }
    for predicate in &file.predicates {
        mentioned[usize::from(predicate.name)] = true;
    }
    mentioned
}

/// The schema's types. A type that several mention is shared and not copied.
fn schema_types(file: &File, spur: impl Fn(u16) -> lasso::Spur) -> Vec<PredicateTy> {
    let mut types: Vec<PredicateTy> = vec![];
    for ty in &file.types {
        let ty = match ty {
            Type::Int => PredicateTy::Int,
            Type::String => PredicateTy::Str,
            Type::Bytes => PredicateTy::Bytes,
            Type::Fact(predicate) => PredicateTy::Fact(PredicateId(*predicate)),
            Type::Record(fields) => PredicateTy::Record(
                fields
                    .iter()
                    .map(|(name, ty)| (spur(*name), types[usize::from(*ty)].clone()))
                    .collect(),
            ),
            Type::Union(alternatives) => PredicateTy::Union(
                alternatives
                    .iter()
                    .map(|(name, disc, ty)| Alternative {
                        name: spur(*name),
                        disc: *disc,
                        ty: types[usize::from(*ty)].clone(),
                    })
                    .collect(),
            ),
        };
        types.push(ty);
    }
    types
}

/// A node as the Rust holds it. What the file leaves out (a literal's value, an operator, an
/// anchor) the check does not read, so any value does.
fn kind(shape: &Shape, symbols: &[Symbol], nodes: &[NodeId], literal: Symbol) -> ExprKind<NodeId> {
    let symbol = |name: u16| symbols[usize::from(name)];
    let node = |number: u16| nodes[usize::from(number)];
    let list = |numbers: &[u16]| numbers.iter().map(|number| node(*number)).collect();
    match shape {
        Shape::Int => ExprKind::Lit(Literal::Int(0)),
        Shape::String => ExprKind::Lit(Literal::Str(literal)),
        Shape::Bytes => ExprKind::Lit(Literal::Bytes(Arc::from([]))),
        Shape::Var(name) => ExprKind::Var(symbol(*name)),
        Shape::Wildcard => ExprKind::Wildcard,
        Shape::Never => ExprKind::Never,
        Shape::Prefix(name) => ExprKind::Prefix(symbol(*name)),
        Shape::Fuzzy(name, distance) => {
            ExprKind::Fuzzy(symbol(*name), *distance, FuzzyAnchor::Whole)
        }
        Shape::Record(fields) => ExprKind::Record(
            fields
                .iter()
                .map(|(name, value)| (symbol(*name), node(*value)))
                .collect(),
        ),
        Shape::Key(name, base) => ExprKind::Access(FieldRef::Key(symbol(*name)), node(*base)),
        Shape::Value(base) => ExprKind::Access(FieldRef::Value, node(*base)),
        Shape::Disjunction(branches) => ExprKind::Disjunction(list(branches)),
        Shape::Subquery(inner) => ExprKind::Subquery(query(inner, nodes)),
        Shape::Fact(predicate, key) => ExprKind::Fact(PredicateId(*predicate), node(*key)),
        Shape::Arith(operands) => {
            let operators = operands.len().saturating_sub(1);
            ExprKind::Arith(list(operands), vec![ArithOp::Add; operators].into())
        }
        Shape::Error => ExprKind::Error,
        Shape::Select(name, base) => ExprKind::Select(symbol(*name), node(*base)),
    }
}

fn query(query: &file::Query, nodes: &[NodeId]) -> Query<NodeId> {
    let node = |number: u16| nodes[usize::from(number)];
    let body = query
        .body
        .iter()
        .map(|stmt| match *stmt {
            Stmt::Bind(left, right) => QueryStmt::Bind(node(left), node(right)),
            Stmt::Implicit(pattern) => QueryStmt::Implicit(node(pattern)),
            Stmt::Negation(pattern) => QueryStmt::Negation(node(pattern)),
            Stmt::Deny(left, right) => QueryStmt::Deny(node(left), node(right)),
            Stmt::Compare(left, right) => {
                QueryStmt::Compare(node(left), node(right), CompareOp::Lt)
            }
        })
        .collect();
    Query::new(node(query.head), body)
}
