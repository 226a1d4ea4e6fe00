//! The length of an answer, found without writing its types out.
//!
//! A substitution of a few bindings can stand for a type larger than any machine: with
//! x1 = {a = x2, b = x2} and so on each binding doubles it. The Rust writes it out all the same. So
//! the judge first measures: it walks what the counted copy left, each unknown and each shared
//! record once. Where the Rust does write the answer out, its length is compared with this one.

use std::collections::HashMap;
use std::sync::Arc;

use crate::syntax::Ty;

/// Lengths in characters; a length past 64 bits stays at the largest number.
pub struct Measure<'a> {
    subst: &'a [Option<Ty>],
    unknowns: Vec<Option<u64>>,
    /// By address of the shared fields or alternatives, which live as long as `subst` and the types
    /// measured.
    shared: HashMap<usize, u64>,
}

impl<'a> Measure<'a> {
    pub fn new(subst: &'a [Option<Ty>]) -> Self {
        Measure {
            subst,
            unknowns: vec![None; subst.len()],
            shared: HashMap::new(),
        }
    }

    /// The length of a type written out with every binding followed.
    pub fn length(&mut self, ty: &Ty) -> u64 {
        match ty {
            Ty::Int | Ty::String | Ty::Bytes | Ty::Error => 2,
            Ty::Fact(_) => 10,
            Ty::Var(var) => {
                let index = var.index();
                if let Some(length) = self.unknowns[index] {
                    return length;
                }
                let length = match &self.subst[index] {
                    Some(bound) => self.length(bound),
                    None => 6,
                };
                self.unknowns[index] = Some(length);
                length
            }
            Ty::Record(fields) => {
                let at = Arc::as_ptr(fields).cast::<u8>() as usize;
                let inner = fields.iter().map(|(_, field)| (4, field));
                self.composite(at, inner)
            }
            Ty::Union(alternatives) => {
                let at = Arc::as_ptr(alternatives).cast::<u8>() as usize;
                let inner = alternatives.iter().map(|(_, _, payload)| (12, payload));
                self.composite(at, inner)
            }
        }
    }

    /// Shape and count, then for each part what stands before it and the part.
    fn composite<'t>(&mut self, at: usize, parts: impl Iterator<Item = (u64, &'t Ty)>) -> u64 {
        if let Some(length) = self.shared.get(&at) {
            return *length;
        }
        let mut length = 6_u64;
        for (before, part) in parts {
            length = length
                .saturating_add(before)
                .saturating_add(self.length(part));
        }
        self.shared.insert(at, length);
        length
    }
}
