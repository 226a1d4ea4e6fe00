//! Types as an answer has them.

use std::fmt;

/// A type of a node.
#[derive(Clone, Debug, PartialEq, Eq)]
pub enum Ty {
    /// Integers.
    Integer,
    /// Strings.
    String,
    /// Bytes.
    Bytes,
    /// The number of the fact's predicate.
    Fact(u32),
    /// Its fields.
    Record(Vec<Field>),
    /// Its alternatives.
    Union(Vec<Alternative>),
    /// A type that the query leaves open; the same number is the same type.
    Open(u16),
    /// What does not fit, could not be read, or depends on an absent predicate.
    Error,
}

/// A field of a record.
#[derive(Clone, Debug, PartialEq, Eq)]
pub struct Field {
    /// The number of its name.
    pub name: u16,
    /// Its type.
    pub ty: Ty,
}

/// An alternative of a union.
#[derive(Clone, Debug, PartialEq, Eq)]
pub struct Alternative {
    /// The number of its name.
    pub name: u16,
    /// What tells it from the others.
    pub discriminant: u32,
    /// What it carries.
    pub ty: Ty,
}

/// The texts that types are shown with: names by number, and the name number of each predicate.
#[derive(Clone, Debug, Default, PartialEq, Eq)]
pub struct Names {
    /// The text of each name.
    pub names: Vec<String>,
    /// The number of each predicate's name.
    pub predicates: Vec<u16>,
}

impl Names {
    /// The text of a name, `?` where there is none.
    pub fn name(&self, number: u16) -> &str {
        self.names.get(usize::from(number)).map_or("?", String::as_str)
    }

    /// The name of a predicate, if the file has it.
    pub fn predicate(&self, number: u32) -> Option<&str> {
        let name = self.predicates.get(usize::try_from(number).ok()?)?;
        self.names.get(usize::from(*name)).map(String::as_str)
    }
}

impl Ty {
    /// As messages show it.
    ///
    /// ```
    /// use sigla::{Field, Names, Ty};
    /// let names = Names { names: vec!["pen".into()], predicates: vec![] };
    /// let ty = Ty::Record(vec![Field { name: 0, ty: Ty::Integer }]);
    /// assert_eq!(ty.shown(&names).to_string(), "{pen = an integer}");
    /// assert_eq!(Ty::Fact(7).shown(&names).to_string(), "a fact");
    /// ```
    pub fn shown<'a>(&'a self, names: &'a Names) -> Shown<'a> {
        Shown { ty: self, names }
    }

    /// As a tree, a line for each part, indented.
    ///
    /// ```
    /// use sigla::{Field, Names, Ty};
    /// let names = Names { names: vec!["pen".into()], predicates: vec![] };
    /// let ty = Ty::Record(vec![Field { name: 0, ty: Ty::Open(3) }]);
    /// assert_eq!(ty.tree(&names).to_string(), "record\n  pen: open 3\n");
    /// ```
    pub fn tree<'a>(&'a self, names: &'a Names) -> Tree<'a> {
        Tree { ty: self, names }
    }
}

/// A type as messages show it.
pub struct Shown<'a> {
    ty: &'a Ty,
    names: &'a Names,
}

impl fmt::Display for Shown<'_> {
    fn fmt(&self, f: &mut fmt::Formatter<'_>) -> fmt::Result {
        match self.ty {
            Ty::Integer => write!(f, "an integer"),
            Ty::String => write!(f, "a string"),
            Ty::Bytes => write!(f, "bytes"),
            Ty::Fact(predicate) => match self.names.predicate(*predicate) {
                Some(name) => write!(f, "`{name}`"),
                None => write!(f, "a fact"),
            },
            Ty::Record(fields) => {
                write!(f, "{{")?;
                for (i, field) in fields.iter().enumerate() {
                    let comma = if i == 0 { "" } else { ", " };
                    write!(f, "{comma}{} = {}", self.names.name(field.name), field.ty.shown(self.names))?;
                }
                write!(f, "}}")
            }
            Ty::Union(alternatives) => {
                write!(f, "{{")?;
                for (i, part) in alternatives.iter().enumerate() {
                    let bar = if i == 0 { "" } else { " | " };
                    write!(f, "{bar}{} : {} = {}", self.names.name(part.name), part.ty.shown(self.names), part.discriminant)?;
                }
                write!(f, "}}")
            }
            Ty::Open(_) => write!(f, "an unknown type"),
            Ty::Error => write!(f, "(already reported)"),
        }
    }
}

/// A type as a tree.
pub struct Tree<'a> {
    ty: &'a Ty,
    names: &'a Names,
}

impl Tree<'_> {
    fn write(&self, f: &mut fmt::Formatter<'_>, ty: &Ty, depth: usize) -> fmt::Result {
        match ty {
            Ty::Integer => writeln!(f, "integer"),
            Ty::String => writeln!(f, "string"),
            Ty::Bytes => writeln!(f, "bytes"),
            Ty::Fact(predicate) => match self.names.predicate(*predicate) {
                Some(name) => writeln!(f, "fact {name}"),
                None => writeln!(f, "fact {predicate} (absent)"),
            },
            Ty::Record(fields) => {
                writeln!(f, "record")?;
                for field in fields {
                    write!(f, "{:1$}{2}: ", "", 2 * depth + 2, self.names.name(field.name))?;
                    self.write(f, &field.ty, depth + 1)?;
                }
                Ok(())
            }
            Ty::Union(alternatives) => {
                writeln!(f, "union")?;
                for part in alternatives {
                    write!(f, "{:1$}{2} = {3}: ", "", 2 * depth + 2, self.names.name(part.name), part.discriminant)?;
                    self.write(f, &part.ty, depth + 1)?;
                }
                Ok(())
            }
            Ty::Open(number) => writeln!(f, "open {number}"),
            Ty::Error => writeln!(f, "error"),
        }
    }
}

impl fmt::Display for Tree<'_> {
    fn fmt(&self, f: &mut fmt::Formatter<'_>) -> fmt::Result {
        self.write(f, self.ty, 0)
    }
}
