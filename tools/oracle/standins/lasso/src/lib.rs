//! Stand-in for the crate `lasso`: texts with numbers, as much of it as schema.rs uses.
//!
//! A text has one number, numbers count from 0 in the order of interning. A few texts are looked up by a plain
//! scan, more of them by a hash table, so that the Rust's times beside it are not made worse than they would be.

use std::collections::HashMap;

/// The number of a text.
#[derive(Debug, Clone, Copy, PartialEq, Eq, PartialOrd, Ord, Hash)]
pub struct Spur(u32);

/// So many texts are scanned.
const SCANNED: usize = 16;

#[derive(Debug, Default)]
struct Texts {
    all: Vec<Box<str>>,
    /// Empty up to `SCANNED`, then of all.
    numbers: HashMap<Box<str>, Spur>,
}

impl Texts {
    fn get(&self, text: &str) -> Option<Spur> {
        if self.all.len() > SCANNED {
            return self.numbers.get(text).copied();
        }
        let at = self.all.iter().position(|known| **known == *text)?;
        Some(Spur(at as u32))
    }

    fn push(&mut self, text: &str) -> Spur {
        self.all.push(text.into());
        if self.all.len() > SCANNED {
            let from = self.numbers.len();
            let more = (from..).zip(&self.all[from..]);
            self.numbers
                .extend(more.map(|(at, text)| (text.clone(), Spur(at as u32))));
        }
        Spur(self.all.len() as u32 - 1)
    }

    fn resolve(&self, spur: &Spur) -> Option<&str> {
        self.all.get(spur.0 as usize).map(|text| &**text)
    }
}

/// A table that still grows.
#[derive(Debug, Default)]
pub struct Rodeo {
    texts: Texts,
}

impl Rodeo {
    pub fn new() -> Self {
        Self::default()
    }

    pub fn get(&self, text: &str) -> Option<Spur> {
        self.texts.get(text)
    }

    pub fn get_or_intern(&mut self, text: &str) -> Spur {
        match self.get(text) {
            Some(spur) => spur,
            None => self.texts.push(text),
        }
    }

    pub fn try_resolve(&self, spur: &Spur) -> Option<&str> {
        self.texts.resolve(spur)
    }

    pub fn into_reader(self) -> RodeoReader {
        RodeoReader { texts: self.texts }
    }
}

/// A table that grows no more.
#[derive(Debug)]
pub struct RodeoReader {
    texts: Texts,
}

impl RodeoReader {
    pub fn get(&self, text: &str) -> Option<Spur> {
        self.texts.get(text)
    }

    pub fn try_resolve(&self, spur: &Spur) -> Option<&str> {
        self.texts.resolve(spur)
    }
}
