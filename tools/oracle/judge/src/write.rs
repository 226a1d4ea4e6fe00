//! The answer's bytes, as document 01 lays them out.

use std::collections::HashMap;

use fjord_schema::schema::Symbol;

use crate::syntax::Ty;

/// Lines of hexadecimal digits. Only as many bytes as the answer slice holds are kept; the length
/// is counted to the end.
pub struct Lines {
    kept: Vec<u8>,
    room: usize,
    length: u64,
}

impl Lines {
    pub fn new(room: usize) -> Self {
        Lines {
            kept: vec![],
            room,
            length: 0,
        }
    }

    /// Characters written, LFs included.
    pub fn length(&self) -> u64 {
        self.length
    }

    /// The lines, or none where they are longer than the room.
    pub fn into_bytes(self) -> Option<Vec<u8>> {
        (self.length <= self.room as u64).then_some(self.kept)
    }

    /// The bytes as digits.
    pub fn put(&mut self, bytes: &[u8]) {
        const DIGITS: &[u8; 16] = b"0123456789abcdef";
        for byte in bytes {
            self.character(DIGITS[usize::from(byte >> 4)]);
            self.character(DIGITS[usize::from(byte & 15)]);
        }
    }

    pub fn end_line(&mut self) {
        self.character(b'\n');
    }

    fn character(&mut self, character: u8) {
        if self.kept.len() < self.room {
            self.kept.push(character);
        }
        self.length += 1;
    }

    /// A type as an answer writes it, unknowns unresolved.
    pub fn put_type(&mut self, ty: &Ty, numbers: &HashMap<Symbol, u16>) {
        match ty {
            Ty::Int => self.put(&[0]),
            Ty::String => self.put(&[1]),
            Ty::Bytes => self.put(&[2]),
            Ty::Fact(predicate) => {
                self.put(&[3]);
                self.put(&predicate.0.to_be_bytes());
            }
            Ty::Record(fields) => {
                self.put(&[4]);
                self.put(&two(fields.len()));
                for (name, field) in fields.iter() {
                    self.put(&numbers[name].to_be_bytes());
                    self.put_type(field, numbers);
                }
            }
            Ty::Union(alternatives) => {
                self.put(&[5]);
                self.put(&two(alternatives.len()));
                for (name, disc, payload) in alternatives.iter() {
                    self.put(&numbers[name].to_be_bytes());
                    self.put(&disc.to_be_bytes());
                    self.put_type(payload, numbers);
                }
            }
            Ty::Var(var) => {
                self.put(&[6]);
                self.put(&two(var.index()));
            }
            Ty::Error => self.put(&[7]),
        }
    }
}

/// A number in two bytes. All that an answer writes so fit: they come from a file's two bytes or
/// count at most 512.
pub fn two(number: usize) -> [u8; 2] {
    u16::try_from(number)
        .expect("a number of two bytes")
        .to_be_bytes()
}
