//! The first reader: from bytes to a refusal's number or what the file describes.
//!
//! Written from document 01's "Frame lines" and "When a file is turned down" and from cards 2 and 3.
//! On one line the conditions are asked in the order 3, 4, 5, 13, 6 to 10, each over the whole frame
//! before the next, so the first that holds is the one given.

use crate::Limits;
use crate::file::{File, Node, Predicate, Query, Shape, Stmt, Tree, Type};

const WORK_WORDS: usize = 16_384;
const FILE_BYTES: usize = 65_536;
const LINE_BYTES: usize = 512;
/// Names, types, predicates, nodes.
const MAX_NAMES: usize = 256;
const MAX_TYPES: usize = 256;
const MAX_PREDICATES: usize = 128;
const MAX_NODES: usize = 512;
const MAX_QUERIES: usize = 64;

/// How many bytes a predicate reference has: 2 up to card 6, 4 since.
#[derive(Debug, Clone, Copy, PartialEq, Eq)]
pub enum Edition {
    Narrow,
    Wide,
}

/// The file that the bytes describe, or the refusal, 1 to 10 or 13.
pub fn read(file: &[u8], limits: &Limits) -> Result<File, u8> {
    read_in(file, limits, Edition::Wide)
}

/// The same of a file of either edition.
pub fn read_in(file: &[u8], limits: &Limits, edition: Edition) -> Result<File, u8> {
    if limits.words < WORK_WORDS {
        return Err(1);
    }
    if file.len() > FILE_BYTES {
        return Err(2);
    }
    let mut reader = Reader::new(edition);
    let mut rest = file;
    while !rest.is_empty() {
        // A last line without LF is refused by 3 whatever it holds.
        let end = rest.iter().position(|byte| *byte == b'\n').ok_or(3)?;
        reader.line(&rest[..end])?;
        rest = &rest[end + 1..];
    }
    reader.finish()
}

/// What the lines read so far have given.
struct Reader {
    edition: Edition,
    /// The kind of the last line, 0 before the first.
    kind: u8,
    limits: (u8, u16),
    names: Vec<Vec<u8>>,
    types: Vec<Type>,
    predicates: Vec<Predicate>,
    /// The queries that are closed.
    trees: Vec<Tree>,
    /// The nodes since the last of them.
    nodes: Vec<Node>,
    /// For each of these nodes, whether a frame has named it.
    named: Vec<bool>,
}

impl Reader {
    fn new(edition: Edition) -> Reader {
        Reader {
            edition,
            kind: 0,
            limits: (0, 0),
            names: vec![],
            types: vec![],
            predicates: vec![],
            trees: vec![],
            nodes: vec![],
            named: vec![],
        }
    }

    fn line(&mut self, line: &[u8]) -> Result<(), u8> {
        let bytes = decode(line).ok_or(3)?;
        let kind = bytes[0];
        if !may_follow(self.kind, kind) {
            return Err(4);
        }
        let full = match kind {
            2 => self.names.len() == MAX_NAMES,
            3 => self.types.len() == MAX_TYPES,
            4 => self.predicates.len() == MAX_PREDICATES,
            5 => self.nodes.len() == MAX_NODES,
            _ => false,
        };
        if full {
            return Err(5);
        }
        if kind == 6 && self.trees.len() == MAX_QUERIES {
            return Err(13);
        }
        self.kind = kind;
        let frame = Frame {
            rest: &bytes[1..],
            edition: self.edition,
        };
        match kind {
            1 => self.limits(frame),
            2 => self.name(frame),
            3 => self.schema_type(frame),
            4 => self.predicate(frame),
            5 => self.node(frame),
            _ => self.query(frame),
        }
    }

    fn limits(&mut self, mut frame: Frame) -> Result<(), u8> {
        self.limits = (frame.byte()?, frame.two()?);
        frame.end()
    }

    fn name(&mut self, frame: Frame) -> Result<(), u8> {
        let text = frame.rest;
        if !is_text(text) {
            return Err(7);
        }
        if self.names.iter().any(|known| known == text) {
            return Err(8);
        }
        self.names.push(text.to_vec());
        Ok(())
    }

    fn schema_type(&mut self, mut frame: Frame) -> Result<(), u8> {
        let ty = match frame.byte()? {
            0 => Type::Int,
            1 => Type::String,
            2 => Type::Bytes,
            3 => Type::Fact(frame.predicate()?),
            4 => Type::Record(frame.list(|frame| Ok((frame.two()?, frame.two()?)))?),
            5 => Type::Union(frame.list(|frame| Ok((frame.two()?, frame.four()?, frame.two()?)))?),
            _ => return Err(6),
        };
        frame.end()?;

        match &ty {
            Type::Record(fields) => {
                for (name, inner) in fields {
                    self.has_name(*name)?;
                    self.has_type(*inner)?;
                }
                if repeats(fields.iter().map(|(name, _)| *name)) {
                    return Err(10);
                }
            }
            Type::Union(alternatives) => {
                for (name, _, inner) in alternatives {
                    self.has_name(*name)?;
                    self.has_type(*inner)?;
                }
                if repeats(alternatives.iter().map(|(_, disc, _)| *disc)) {
                    return Err(10);
                }
            }
            _ => {}
        }
        self.types.push(ty);
        Ok(())
    }

    fn predicate(&mut self, mut frame: Frame) -> Result<(), u8> {
        let (name, key) = (frame.two()?, frame.two()?);
        let value = match frame.byte()? {
            0 => None,
            1 => Some(frame.two()?),
            _ => return Err(6),
        };
        frame.end()?;

        self.has_name(name)?;
        self.has_type(key)?;
        if let Some(value) = value {
            self.has_type(value)?;
        }
        self.predicates.push(Predicate { name, key, value });
        Ok(())
    }

    fn node(&mut self, mut frame: Frame) -> Result<(), u8> {
        let (start, end) = (frame.four()?, frame.four()?);
        let shape = match frame.byte()? {
            0x00 => Shape::Int,
            0x01 => Shape::String,
            0x02 => Shape::Bytes,
            0x03 => Shape::Var(frame.two()?),
            0x04 => Shape::Wildcard,
            0x05 => Shape::Never,
            0x06 => Shape::Prefix(frame.two()?),
            0x07 => Shape::Fuzzy(frame.two()?, frame.byte()?),
            0x08 => Shape::Record(frame.list(|frame| Ok((frame.two()?, frame.two()?)))?),
            0x09 => Shape::Key(frame.two()?, frame.two()?),
            0x0a => Shape::Value(frame.two()?),
            0x0b => Shape::Disjunction(frame.list(Frame::two)?),
            0x0c => Shape::Subquery(frame.query()?),
            0x0d => Shape::Fact(frame.predicate()?, frame.two()?),
            0x0e => Shape::Arith(frame.list(Frame::two)?),
            0x0f => Shape::Error,
            0x10 => Shape::Select(frame.two()?, frame.two()?),
            _ => return Err(6),
        };
        frame.end()?;

        for name in shape.names() {
            self.has_name(name)?;
        }
        self.name_nodes(&shape.nodes())?;
        self.nodes.push(Node { start, end, shape });
        self.named.push(false);
        Ok(())
    }

    fn query(&mut self, mut frame: Frame) -> Result<(), u8> {
        let query = frame.query()?;
        frame.end()?;
        self.name_nodes(&query.nodes())?;
        let nodes = std::mem::take(&mut self.nodes);
        self.named.clear();
        self.trees.push(Tree { nodes, query });
        Ok(())
    }

    fn has_name(&self, name: u16) -> Result<(), u8> {
        exists(usize::from(name) < self.names.len())
    }

    /// On an 03 line the type itself is not yet among the types, so only lower ones exist.
    fn has_type(&self, ty: u16) -> Result<(), u8> {
        exists(usize::from(ty) < self.types.len())
    }

    /// Each node must exist already and be named for the first time, within this frame too.
    fn name_nodes(&mut self, nodes: &[u16]) -> Result<(), u8> {
        for node in nodes {
            let named = self.named.get_mut(usize::from(*node)).ok_or(9)?;
            if *named {
                return Err(9);
            }
            *named = true;
        }
        Ok(())
    }

    fn finish(self) -> Result<File, u8> {
        if self.kind != 6 {
            return Err(4);
        }
        Ok(File {
            max_distance: self.limits.0,
            max_term: self.limits.1,
            names: self.names,
            types: self.types,
            predicates: self.predicates,
            trees: self.trees,
        })
    }
}

/// The bytes that a line's digits stand for; none where the line is empty, odd, too long or has
/// another character.
fn decode(line: &[u8]) -> Option<Vec<u8>> {
    if line.is_empty() || !line.len().is_multiple_of(2) || line.len() / 2 > LINE_BYTES {
        return None;
    }
    line.chunks(2)
        .map(|pair| Some(digit(pair[0])? * 16 + digit(pair[1])?))
        .collect()
}

fn digit(character: u8) -> Option<u8> {
    match character {
        b'0'..=b'9' => Some(character - b'0'),
        b'a'..=b'f' => Some(character - b'a' + 10),
        _ => None,
    }
}

/// Whether a line of kind `present` may come after one of kind `previous`, 0 for no line yet.
fn may_follow(previous: u8, present: u8) -> bool {
    match (previous, present) {
        (0, _) => present == 1,
        (6, _) => present == 5,
        (_, 2..=6) => previous <= present,
        _ => false,
    }
}

/// The text rule: RFC 3629's, as the Rust's own test has it.
fn is_text(bytes: &[u8]) -> bool {
    std::str::from_utf8(bytes).is_ok()
}

fn exists(there: bool) -> Result<(), u8> {
    if there { Ok(()) } else { Err(9) }
}

fn repeats<T: Ord>(items: impl Iterator<Item = T>) -> bool {
    let mut items: Vec<T> = items.collect();
    items.sort_unstable();
    items.windows(2).any(|pair| pair[0] == pair[1])
}

/// The bytes of one frame that are still to be read. Running short is refusal 6.
struct Frame<'a> {
    rest: &'a [u8],
    edition: Edition,
}

impl Frame<'_> {
    fn byte(&mut self) -> Result<u8, u8> {
        let (first, rest) = self.rest.split_first().ok_or(6)?;
        self.rest = rest;
        Ok(*first)
    }

    fn two(&mut self) -> Result<u16, u8> {
        Ok(u16::from_be_bytes([self.byte()?, self.byte()?]))
    }

    fn four(&mut self) -> Result<u32, u8> {
        let [a, b] = self.two()?.to_be_bytes();
        let [c, d] = self.two()?.to_be_bytes();
        Ok(u32::from_be_bytes([a, b, c, d]))
    }

    /// A predicate's number.
    fn predicate(&mut self) -> Result<u32, u8> {
        match self.edition {
            Edition::Narrow => Ok(u32::from(self.two()?)),
            Edition::Wide => self.four(),
        }
    }

    /// Items to the frame's end.
    fn list<T>(&mut self, item: impl Fn(&mut Self) -> Result<T, u8>) -> Result<Vec<T>, u8> {
        let mut items = vec![];
        while !self.rest.is_empty() {
            items.push(item(self)?);
        }
        Ok(items)
    }

    fn query(&mut self) -> Result<Query, u8> {
        let head = self.two()?;
        let body = self.list(|frame| {
            Ok(match frame.byte()? {
                0 => Stmt::Bind(frame.two()?, frame.two()?),
                1 => Stmt::Implicit(frame.two()?),
                2 => Stmt::Negation(frame.two()?),
                3 => Stmt::Deny(frame.two()?, frame.two()?),
                4 => Stmt::Compare(frame.two()?, frame.two()?),
                _ => return Err(6),
            })
        })?;
        Ok(Query { head, body })
    }

    fn end(&self) -> Result<(), u8> {
        if self.rest.is_empty() { Ok(()) } else { Err(6) }
    }
}
