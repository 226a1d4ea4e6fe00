//! What a file describes, as plain data. References are numbers within the file.

/// A file past refusals 1 to 10 and 13.
#[derive(Debug, Clone, PartialEq)]
pub struct File {
    pub max_distance: u8,
    pub max_term: u16,
    pub names: Vec<Vec<u8>>,
    pub types: Vec<Type>,
    pub predicates: Vec<Predicate>,
    /// The queries in file order, at least one; each has nodes of its own.
    pub trees: Vec<Tree>,
}

/// One query with its nodes.
#[derive(Debug, Clone, PartialEq)]
pub struct Tree {
    pub nodes: Vec<Node>,
    pub query: Query,
}

/// A schema type; its own references are types of a lower number.
#[derive(Debug, Clone, PartialEq)]
pub enum Type {
    Int,
    String,
    Bytes,
    /// A predicate number, which need not exist.
    Fact(u32),
    /// Name and type of each field.
    Record(Vec<(u16, u16)>),
    /// Name, discriminant and type of each alternative.
    Union(Vec<(u16, u32, u16)>),
}

#[derive(Debug, Clone, PartialEq)]
pub struct Predicate {
    pub name: u16,
    pub key: u16,
    pub value: Option<u16>,
}

#[derive(Debug, Clone, PartialEq)]
pub struct Node {
    pub start: u32,
    pub end: u32,
    pub shape: Shape,
}

/// The shape byte's cases in order, 00 to 10.
#[derive(Debug, Clone, PartialEq)]
pub enum Shape {
    Int,
    String,
    Bytes,
    Var(u16),
    Wildcard,
    Never,
    Prefix(u16),
    /// Name of the term, distance.
    Fuzzy(u16, u8),
    /// Name and node of each field.
    Record(Vec<(u16, u16)>),
    /// Name, node.
    Key(u16, u16),
    Value(u16),
    Disjunction(Vec<u16>),
    Subquery(Query),
    /// Predicate number, which need not exist, and key node.
    Fact(u32, u16),
    Arith(Vec<u16>),
    Error,
    /// Name, node.
    Select(u16, u16),
}

#[derive(Debug, Clone, PartialEq)]
pub struct Query {
    pub head: u16,
    pub body: Vec<Stmt>,
}

/// The statement byte's cases in order, 00 to 04.
#[derive(Debug, Clone, Copy, PartialEq)]
pub enum Stmt {
    Bind(u16, u16),
    Implicit(u16),
    Negation(u16),
    Deny(u16, u16),
    Compare(u16, u16),
}

impl File {
    /// The file with one of its queries alone.
    pub fn alone(&self, query: usize) -> File {
        File {
            trees: vec![self.trees[query].clone()],
            ..self.clone()
        }
    }
}

impl Shape {
    /// The names that the shape byte's cases go by, in order.
    pub const NAMES: [&'static str; 17] = [
        "int",
        "string",
        "bytes",
        "var",
        "wildcard",
        "never",
        "prefix",
        "fuzzy",
        "record",
        "key",
        "value",
        "disjunction",
        "subquery",
        "fact",
        "arith",
        "error",
        "select",
    ];

    /// The shape byte.
    pub fn byte(&self) -> u8 {
        match self {
            Shape::Int => 0x00,
            Shape::String => 0x01,
            Shape::Bytes => 0x02,
            Shape::Var(_) => 0x03,
            Shape::Wildcard => 0x04,
            Shape::Never => 0x05,
            Shape::Prefix(_) => 0x06,
            Shape::Fuzzy(..) => 0x07,
            Shape::Record(_) => 0x08,
            Shape::Key(..) => 0x09,
            Shape::Value(_) => 0x0a,
            Shape::Disjunction(_) => 0x0b,
            Shape::Subquery(_) => 0x0c,
            Shape::Fact(..) => 0x0d,
            Shape::Arith(_) => 0x0e,
            Shape::Error => 0x0f,
            Shape::Select(..) => 0x10,
        }
    }

    /// The names that the shape mentions.
    pub fn names(&self) -> Vec<u16> {
        match self {
            Shape::Var(name)
            | Shape::Prefix(name)
            | Shape::Fuzzy(name, _)
            | Shape::Key(name, _)
            | Shape::Select(name, _) => vec![*name],
            Shape::Record(fields) => fields.iter().map(|(name, _)| *name).collect(),
            _ => vec![],
        }
    }

    /// The nodes that the shape mentions, in the frame's order.
    pub fn nodes(&self) -> Vec<u16> {
        match self {
            Shape::Key(_, node)
            | Shape::Value(node)
            | Shape::Fact(_, node)
            | Shape::Select(_, node) => vec![*node],
            Shape::Record(fields) => fields.iter().map(|(_, node)| *node).collect(),
            Shape::Disjunction(nodes) | Shape::Arith(nodes) => nodes.clone(),
            Shape::Subquery(query) => query.nodes(),
            _ => vec![],
        }
    }
}

impl Query {
    /// The nodes that a query mentions, in the frame's order.
    pub fn nodes(&self) -> Vec<u16> {
        let mut nodes = vec![self.head];
        for stmt in &self.body {
            match stmt {
                Stmt::Bind(left, right) | Stmt::Deny(left, right) | Stmt::Compare(left, right) => {
                    nodes.extend([*left, *right]);
                }
                Stmt::Implicit(node) | Stmt::Negation(node) => nodes.push(*node),
            }
        }
        nodes
    }
}

impl Stmt {
    /// The names that the statement byte's cases go by, in order.
    pub const NAMES: [&'static str; 5] = ["bind", "implicit", "negation", "deny", "compare"];

    /// The statement byte.
    pub fn byte(&self) -> u8 {
        match self {
            Stmt::Bind(..) => 0x00,
            Stmt::Implicit(_) => 0x01,
            Stmt::Negation(_) => 0x02,
            Stmt::Deny(..) => 0x03,
            Stmt::Compare(..) => 0x04,
        }
    }
}
