//! A file, parsed. The library reads files for itself; this is for those who want to show one.

use std::error::Error;
use std::fmt;

use crate::answer::{Reader, decoded};
use crate::form::Span;
use crate::ty::Names;

/// The frames of a file, kind by kind. Numbers are as the file has them; that they refer to something is not looked at.
#[derive(Clone, Debug, Default, PartialEq, Eq)]
pub struct File {
    /// The largest distance of a fuzzy term.
    pub distance: u8,
    /// The largest length of a fuzzy term, in characters.
    pub characters: u16,
    /// The texts of the names.
    pub names: Vec<String>,
    /// The schema's types.
    pub types: Vec<TypeFrame>,
    /// Its predicates.
    pub predicates: Vec<PredicateFrame>,
    /// The queries.
    pub queries: Vec<QueryFrames>,
}

/// A type of the schema (03).
#[derive(Clone, Debug, PartialEq, Eq)]
pub enum TypeFrame {
    /// Integers.
    Integer,
    /// Strings.
    String,
    /// Bytes.
    Bytes,
    /// The number of a predicate.
    Fact(u32),
    /// Names and types.
    Record(Vec<(u16, u16)>),
    /// Names, discriminants and types.
    Union(Vec<(u16, u32, u16)>),
}

/// A predicate (04).
#[derive(Clone, Debug, PartialEq, Eq)]
pub struct PredicateFrame {
    /// The number of its name.
    pub name: u16,
    /// The type of its key.
    pub key: u16,
    /// The type of its value, if it has one.
    pub value: Option<u16>,
}

/// A query: its nodes (05) and what it asks (06).
#[derive(Clone, Debug, Default, PartialEq, Eq)]
pub struct QueryFrames {
    /// Leaves first.
    pub nodes: Vec<NodeFrame>,
    /// Its head and statements.
    pub asked: Asked,
}

/// A head and statements.
#[derive(Clone, Debug, Default, PartialEq, Eq)]
pub struct Asked {
    /// The node that is asked for.
    pub head: u16,
    /// In their order.
    pub statements: Vec<StatementFrame>,
}

/// A statement, with its nodes.
#[derive(Clone, Copy, Debug, PartialEq, Eq)]
pub enum StatementFrame {
    /// Left = right.
    Binds(u16, u16),
    /// A pattern that must hold.
    Holds(u16),
    /// A pattern that must not hold.
    Denies(u16),
    /// Left is different from right.
    Differs(u16, u16),
    /// Left and right are compared by their order.
    Compares(u16, u16),
}

/// A node (05).
#[derive(Clone, Debug, PartialEq, Eq)]
pub struct NodeFrame {
    /// The piece of text that it stands for.
    pub span: Span,
    /// What it is.
    pub shape: Shape,
}

/// What a node is, with the numbers of names and nodes.
#[derive(Clone, Debug, PartialEq, Eq)]
pub enum Shape {
    /// An integer literal.
    Integer,
    /// A string literal.
    String,
    /// A bytes literal.
    Bytes,
    /// A variable's name.
    Variable(u16),
    /// The wildcard.
    Wildcard,
    /// What matches nothing.
    Never,
    /// The name whose text is the prefix.
    Prefix(u16),
    /// The name whose text is the term, and the distance.
    Fuzzy(u16, u8),
    /// Names and nodes.
    Record(Vec<(u16, u16)>),
    /// A field's name, of a node.
    Field(u16, u16),
    /// The value of a fact.
    Value(u16),
    /// A choice between patterns.
    Either(Vec<u16>),
    /// A query in brackets.
    Subquery(Asked),
    /// A predicate and the node of its key.
    Fact(u32, u16),
    /// Arithmetic on integers.
    Arithmetic(Vec<u16>),
    /// A piece of text that could not be read.
    Unread,
    /// An alternative's name, of a node.
    Alternative(u16, u16),
}

/// What is no file: the line, from 1, and what is wrong with it.
#[derive(Clone, Debug, PartialEq, Eq)]
pub struct NoFile {
    /// From 1.
    pub line: usize,
    /// What is wrong with it.
    pub what: &'static str,
}

impl fmt::Display for NoFile {
    fn fmt(&self, f: &mut fmt::Formatter<'_>) -> fmt::Result {
        write!(f, "line {}: {}", self.line, self.what)
    }
}

impl Error for NoFile {}

impl File {
    /// Parses the lines of a file.
    ///
    /// ```
    /// let file = sigla::File::parse(b"01020020\n05000000000000000300\n060000\n")?;
    /// assert_eq!(file.queries[0].nodes[0].shape, sigla::Shape::Integer);
    /// assert_eq!(file.write(), b"01020020\n05000000000000000300\n060000\n");
    /// # Ok::<(), sigla::NoFile>(())
    /// ```
    pub fn parse(bytes: &[u8]) -> Result<File, NoFile> {
        let mut file = File::default();
        let mut nodes = Vec::new();
        for (i, line) in bytes.split_inclusive(|&byte| byte == b'\n').enumerate() {
            let fault = |what| NoFile { line: i + 1, what };
            let digits = line.strip_suffix(b"\n").ok_or_else(|| fault("no LF"))?;
            let frame = decoded(digits).ok_or_else(|| fault("not hexadecimal"))?;
            let mut rest = Reader { bytes: &frame };
            let kind = rest.byte().ok_or_else(|| fault("empty"))?;
            file.add(kind, &mut rest, &mut nodes).ok_or_else(|| fault("not a frame of its kind"))?;
            if !rest.bytes.is_empty() {
                return Err(fault("too long"));
            }
        }
        Ok(file)
    }

    fn add(&mut self, kind: u8, rest: &mut Reader<'_>, nodes: &mut Vec<NodeFrame>) -> Option<()> {
        match kind {
            1 => (self.distance, self.characters) = (rest.byte()?, rest.half()?),
            2 => self.names.push(rest.text()?),
            3 => self.types.push(type_frame(rest)?),
            4 => {
                let (name, key) = (rest.half()?, rest.half()?);
                let value = match rest.byte()? {
                    0 => None,
                    1 => Some(rest.half()?),
                    _ => return None,
                };
                self.predicates.push(PredicateFrame { name, key, value });
            }
            5 => nodes.push(NodeFrame { span: rest.span()?, shape: shape(rest)? }),
            6 => self.queries.push(QueryFrames { asked: asked(rest)?, nodes: std::mem::take(nodes) }),
            _ => return None,
        }
        Some(())
    }

    /// The texts that its types are shown with.
    pub fn texts(&self) -> Names {
        Names { names: self.names.clone(), predicates: self.predicates.iter().map(|p| p.name).collect() }
    }

    /// Writes it again.
    pub fn write(&self) -> Vec<u8> {
        let mut out = Vec::new();
        let [high, low] = self.characters.to_be_bytes();
        line(&mut out, &[1, self.distance, high, low]);
        for name in &self.names {
            line(&mut out, &[&[2], name.as_bytes()].concat());
        }
        for ty in &self.types {
            line(&mut out, &type_bytes(ty));
        }
        for p in &self.predicates {
            let mut frame = vec![4];
            frame.extend(p.name.to_be_bytes());
            frame.extend(p.key.to_be_bytes());
            frame.push(u8::from(p.value.is_some()));
            frame.extend(p.value.iter().flat_map(|value| value.to_be_bytes()));
            line(&mut out, &frame);
        }
        for query in &self.queries {
            for node in &query.nodes {
                line(&mut out, &node_bytes(node));
            }
            line(&mut out, &[vec![6], asked_bytes(&query.asked)].concat());
        }
        out
    }
}

fn line(out: &mut Vec<u8>, frame: &[u8]) {
    crate::form::write_line(out, frame);
}

/// What a reader gives until the bytes end.
fn all<T>(rest: &mut Reader<'_>, one: impl Fn(&mut Reader<'_>) -> Option<T>) -> Option<Vec<T>> {
    let mut items = Vec::new();
    while !rest.bytes.is_empty() {
        items.push(one(rest)?);
    }
    Some(items)
}

fn type_frame(rest: &mut Reader<'_>) -> Option<TypeFrame> {
    Some(match rest.byte()? {
        0 => TypeFrame::Integer,
        1 => TypeFrame::String,
        2 => TypeFrame::Bytes,
        3 => TypeFrame::Fact(rest.full()?),
        4 => TypeFrame::Record(all(rest, |r| Some((r.half()?, r.half()?)))?),
        5 => TypeFrame::Union(all(rest, |r| Some((r.half()?, r.full()?, r.half()?)))?),
        _ => return None,
    })
}

fn shape(rest: &mut Reader<'_>) -> Option<Shape> {
    Some(match rest.byte()? {
        0x00 => Shape::Integer,
        0x01 => Shape::String,
        0x02 => Shape::Bytes,
        0x03 => Shape::Variable(rest.half()?),
        0x04 => Shape::Wildcard,
        0x05 => Shape::Never,
        0x06 => Shape::Prefix(rest.half()?),
        0x07 => Shape::Fuzzy(rest.half()?, rest.byte()?),
        0x08 => Shape::Record(all(rest, |r| Some((r.half()?, r.half()?)))?),
        0x09 => Shape::Field(rest.half()?, rest.half()?),
        0x0a => Shape::Value(rest.half()?),
        0x0b => Shape::Either(all(rest, |r| r.half())?),
        0x0c => Shape::Subquery(asked(rest)?),
        0x0d => Shape::Fact(rest.full()?, rest.half()?),
        0x0e => Shape::Arithmetic(all(rest, |r| r.half())?),
        0x0f => Shape::Unread,
        0x10 => Shape::Alternative(rest.half()?, rest.half()?),
        _ => return None,
    })
}

fn asked(rest: &mut Reader<'_>) -> Option<Asked> {
    let head = rest.half()?;
    let statements = all(rest, |r| {
        Some(match r.byte()? {
            0 => StatementFrame::Binds(r.half()?, r.half()?),
            1 => StatementFrame::Holds(r.half()?),
            2 => StatementFrame::Denies(r.half()?),
            3 => StatementFrame::Differs(r.half()?, r.half()?),
            4 => StatementFrame::Compares(r.half()?, r.half()?),
            _ => return None,
        })
    })?;
    Some(Asked { head, statements })
}

fn type_bytes(ty: &TypeFrame) -> Vec<u8> {
    let mut frame = vec![3];
    match ty {
        TypeFrame::Integer => frame.push(0),
        TypeFrame::String => frame.push(1),
        TypeFrame::Bytes => frame.push(2),
        TypeFrame::Fact(p) => {
            frame.push(3);
            frame.extend(p.to_be_bytes());
        }
        TypeFrame::Record(fields) => {
            frame.push(4);
            for (name, ty) in fields {
                frame.extend(name.to_be_bytes());
                frame.extend(ty.to_be_bytes());
            }
        }
        TypeFrame::Union(parts) => {
            frame.push(5);
            for (name, disc, ty) in parts {
                frame.extend(name.to_be_bytes());
                frame.extend(disc.to_be_bytes());
                frame.extend(ty.to_be_bytes());
            }
        }
    }
    frame
}

fn node_bytes(node: &NodeFrame) -> Vec<u8> {
    let mut frame = vec![5];
    frame.extend(node.span.start.to_be_bytes());
    frame.extend(node.span.end.to_be_bytes());
    let mut put = |shape: u8, numbers: &[u16]| {
        frame.push(shape);
        frame.extend(numbers.iter().flat_map(|number| number.to_be_bytes()));
    };
    match &node.shape {
        Shape::Integer => put(0x00, &[]),
        Shape::String => put(0x01, &[]),
        Shape::Bytes => put(0x02, &[]),
        Shape::Variable(name) => put(0x03, &[*name]),
        Shape::Wildcard => put(0x04, &[]),
        Shape::Never => put(0x05, &[]),
        Shape::Prefix(name) => put(0x06, &[*name]),
        Shape::Fuzzy(name, distance) => {
            put(0x07, &[*name]);
            frame.push(*distance);
        }
        Shape::Record(fields) => put(0x08, &fields.iter().flat_map(|field| [field.0, field.1]).collect::<Vec<_>>()),
        Shape::Field(name, node) => put(0x09, &[*name, *node]),
        Shape::Value(node) => put(0x0a, &[*node]),
        Shape::Either(nodes) => put(0x0b, nodes),
        Shape::Subquery(asked) => {
            put(0x0c, &[]);
            frame.extend(asked_bytes(asked));
        }
        Shape::Fact(p, key) => {
            put(0x0d, &[]);
            frame.extend(p.to_be_bytes());
            frame.extend(key.to_be_bytes());
        }
        Shape::Arithmetic(nodes) => put(0x0e, nodes),
        Shape::Unread => put(0x0f, &[]),
        Shape::Alternative(name, node) => put(0x10, &[*name, *node]),
    }
    frame
}

fn asked_bytes(asked: &Asked) -> Vec<u8> {
    let mut bytes = asked.head.to_be_bytes().to_vec();
    for statement in &asked.statements {
        let (byte, nodes) = match *statement {
            StatementFrame::Binds(left, right) => (0, vec![left, right]),
            StatementFrame::Holds(node) => (1, vec![node]),
            StatementFrame::Denies(node) => (2, vec![node]),
            StatementFrame::Differs(left, right) => (3, vec![left, right]),
            StatementFrame::Compares(left, right) => (4, vec![left, right]),
        };
        bytes.push(byte);
        bytes.extend(nodes.iter().flat_map(|node| node.to_be_bytes()));
    }
    bytes
}
