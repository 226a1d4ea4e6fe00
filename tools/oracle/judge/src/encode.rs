//! From what a file describes back to its bytes.

use crate::file::{File, Query, Shape, Stmt, Type};
use crate::read::Edition;

/// The file's lines. No limit is looked at, so damaged values give damaged files.
pub fn encode(file: &File) -> Vec<u8> {
    encode_in(file, Edition::Wide)
}

/// The lines in either edition; in the narrow one no number may be above 65,535.
pub fn encode_in(file: &File, edition: Edition) -> Vec<u8> {
    let mut lines = Lines {
        text: vec![],
        frame: vec![],
        edition,
    };
    lines.start(1);
    lines.frame.push(file.max_distance);
    lines.two(file.max_term);
    for name in &file.names {
        lines.start(2);
        lines.frame.extend_from_slice(name);
    }
    for ty in &file.types {
        lines.start(3);
        lines.ty(ty);
    }
    for predicate in &file.predicates {
        lines.start(4);
        lines.two(predicate.name);
        lines.two(predicate.key);
        lines.frame.push(u8::from(predicate.value.is_some()));
        if let Some(value) = predicate.value {
            lines.two(value);
        }
    }
    for tree in &file.trees {
        for node in &tree.nodes {
            lines.start(5);
            lines.four(node.start);
            lines.four(node.end);
            lines.shape(&node.shape);
        }
        lines.start(6);
        lines.query(&tree.query);
    }
    lines.finish()
}

/// Lines closed so far, and the frame of the one being made.
struct Lines {
    text: Vec<u8>,
    frame: Vec<u8>,
    edition: Edition,
}

impl Lines {
    fn start(&mut self, kind: u8) {
        self.close();
        self.frame.push(kind);
    }

    fn close(&mut self) {
        if self.frame.is_empty() {
            return;
        }
        for byte in self.frame.drain(..) {
            self.text
                .extend_from_slice(format!("{byte:02x}").as_bytes());
        }
        self.text.push(b'\n');
    }

    fn finish(mut self) -> Vec<u8> {
        self.close();
        self.text
    }

    fn two(&mut self, number: u16) {
        self.frame.extend_from_slice(&number.to_be_bytes());
    }

    fn four(&mut self, number: u32) {
        self.frame.extend_from_slice(&number.to_be_bytes());
    }

    /// A predicate's number.
    fn predicate(&mut self, number: u32) {
        match self.edition {
            Edition::Narrow => self.two(u16::try_from(number).expect("a number of two bytes")),
            Edition::Wide => self.four(number),
        }
    }

    fn ty(&mut self, ty: &Type) {
        match ty {
            Type::Int => self.frame.push(0),
            Type::String => self.frame.push(1),
            Type::Bytes => self.frame.push(2),
            Type::Fact(predicate) => {
                self.frame.push(3);
                self.predicate(*predicate);
            }
            Type::Record(fields) => {
                self.frame.push(4);
                for (name, ty) in fields {
                    self.two(*name);
                    self.two(*ty);
                }
            }
            Type::Union(alternatives) => {
                self.frame.push(5);
                for (name, disc, ty) in alternatives {
                    self.two(*name);
                    self.four(*disc);
                    self.two(*ty);
                }
            }
        }
    }

    fn shape(&mut self, shape: &Shape) {
        self.frame.push(shape.byte());
        match shape {
            Shape::Int
            | Shape::String
            | Shape::Bytes
            | Shape::Wildcard
            | Shape::Never
            | Shape::Error => {}
            Shape::Var(number) | Shape::Prefix(number) | Shape::Value(number) => self.two(*number),
            Shape::Fuzzy(name, distance) => {
                self.two(*name);
                self.frame.push(*distance);
            }
            Shape::Record(fields) => {
                for (name, node) in fields {
                    self.two(*name);
                    self.two(*node);
                }
            }
            Shape::Key(first, node) | Shape::Select(first, node) => {
                self.two(*first);
                self.two(*node);
            }
            Shape::Fact(predicate, node) => {
                self.predicate(*predicate);
                self.two(*node);
            }
            Shape::Disjunction(nodes) | Shape::Arith(nodes) => {
                for node in nodes {
                    self.two(*node);
                }
            }
            Shape::Subquery(query) => self.query(query),
        }
    }

    fn query(&mut self, query: &Query) {
        self.two(query.head);
        for stmt in &query.body {
            self.frame.push(stmt.byte());
            match *stmt {
                Stmt::Bind(left, right) | Stmt::Deny(left, right) | Stmt::Compare(left, right) => {
                    self.two(left);
                    self.two(right);
                }
                Stmt::Implicit(node) | Stmt::Negation(node) => self.two(node),
            }
        }
    }
}
