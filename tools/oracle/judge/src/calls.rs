//! Lists of calls on the Rust's substitution, as document 01's "What demand 3 speaks of" has them.
//!
//! `run` makes the calls on the counted copy of ty.rs, and beside it on the uncounted one, which
//! must give the same. What it answers is what another implementation is held against.

use crate::diag::Diagnostics;
use crate::file::{File, Type};
use crate::syntax::Ty;
use crate::tree::{self, Base};
use crate::visits::{self, Stop};
use crate::write::Lines;

/// The largest schema type that a list may name: the Rust writes it out anew for each mention.
const MOST_NODES: u64 = 1 << 16;

/// A side of a unification, or a part of a record cell.
#[derive(Debug, Clone, Copy, PartialEq)]
pub enum Side {
    Int,
    String,
    Bytes,
    Fact(u32),
    Error,
    /// A type of the file's schema, by number.
    Schema(u16),
    /// An unknown that an earlier call made.
    Unknown(u16),
    /// A record cell that an earlier call made, numbered from 0.
    Record(u16),
}

/// One call of a list.
#[derive(Debug, Clone, PartialEq)]
pub enum Call {
    /// A new unknown; they are numbered from 0.
    Fresh,
    /// A new record cell of names and parts.
    Record(Vec<(u16, Side)>),
    /// The found side, then the expected one.
    Unify(Side, Side),
    /// A snapshot; they are numbered from 0.
    Snapshot,
    /// Back to a snapshot.
    Rollback(u16),
    /// Visits spent in between.
    Spend(u64),
}

/// What a call came to.
#[derive(Debug, Clone, Copy, PartialEq)]
pub enum Outcome {
    Done,
    Failed(Reason),
    /// The list ends here.
    OutOfVisits,
}

/// Why a unification failed.
#[derive(Debug, Clone, Copy, PartialEq)]
pub enum Reason {
    Mismatch,
    UnionMismatch,
    /// A name that the expected side lacks.
    UnknownField(u16),
    Infinite,
}

/// After a call: its outcome, the visits left, and each unknown's binding.
#[derive(Debug, Clone, PartialEq)]
pub struct Step {
    pub outcome: Outcome,
    pub left: u64,
    /// The binding as an answer writes a type, other unknowns standing in it as 06 and number; none
    /// for a free unknown.
    pub bindings: Vec<Option<Vec<u8>>>,
}

/// Another implementation of the same calls.
pub trait Other {
    /// The steps of a list over the schema of `file`, or none where it needs more than there is room
    /// for.
    fn run(&mut self, file: &File, visits: u64, calls: &[Call]) -> Option<Vec<Step>>;
}

/// The steps that the Rust makes, or why it can't hold the file.
pub fn run(file: &File, visits: u64, calls: &[Call]) -> Result<Vec<Step>, &'static str> {
    let base = tree::base(file);
    let (mut first, mut second) = (Diagnostics::new(), Diagnostics::new());
    let mut counted = crate::counted::probe::Bench::new(&base.schema, &base.interner, &mut first);
    let mut plain = crate::probed::probe::Bench::new(&base.schema, &base.interner, &mut second);

    let mut sides = Sides {
        base: &base,
        sizes: sizes(&file.types),
        unknowns: vec![],
        records: vec![],
    };
    let mut left = visits;
    let mut steps = vec![];
    for call in calls {
        let (outcome, made) = visits::counted(left, || {
            Ok(match call {
                Call::Fresh => {
                    let unknown = counted.fresh();
                    assert_eq!(unknown, plain.fresh());
                    sides.unknowns.push(unknown);
                    Outcome::Done
                }
                Call::Record(fields) => {
                    let cell = sides.record(fields)?;
                    sides.records.push(cell);
                    Outcome::Done
                }
                Call::Unify(found, expected) => {
                    let (found, expected) = (sides.ty(*found)?, sides.ty(*expected)?);
                    match counted.unify(&found, &expected) {
                        Ok(()) => Outcome::Done,
                        Err(failure) => Outcome::Failed(sides.reason(failure)),
                    }
                }
                Call::Snapshot => {
                    counted.snapshot();
                    plain.snapshot();
                    Outcome::Done
                }
                Call::Rollback(to) => {
                    counted.rollback(usize::from(*to));
                    plain.rollback(usize::from(*to));
                    Outcome::Done
                }
                Call::Spend(visits) => {
                    visits::spend(*visits);
                    Outcome::Done
                }
            })
        });
        left -= made;
        let outcome = match outcome {
            Ok(outcome) => outcome?,
            Err(Stop::Visits) => Outcome::OutOfVisits,
            Err(Stop::Size | Stop::Text) => return Err(crate::TOO_LARGE),
        };
        if outcome != Outcome::OutOfVisits {
            if let Call::Unify(found, expected) = call {
                let (found, expected) = (sides.ty(*found)?, sides.ty(*expected)?);
                let failed = plain.unify(&found, &expected).is_err();
                assert_eq!(
                    failed,
                    outcome != Outcome::Done,
                    "the counted copy unifies otherwise than ty.rs"
                );
            }
            assert_eq!(
                counted.bindings(),
                plain.bindings(),
                "the counted copy binds otherwise than ty.rs"
            );
        }
        steps.push(Step {
            outcome,
            left,
            bindings: counted
                .bindings()
                .iter()
                .map(|binding| binding.as_ref().map(|ty| written(ty, &base)))
                .collect(),
        });
        if outcome == Outcome::OutOfVisits {
            break;
        }
    }
    Ok(steps)
}

/// What the calls so far have made.
struct Sides<'a> {
    base: &'a Base,
    /// Of each schema type, the nodes it has when written out.
    sizes: Vec<u64>,
    unknowns: Vec<Ty>,
    records: Vec<Ty>,
}

impl Sides<'_> {
    fn ty(&self, side: Side) -> Result<Ty, &'static str> {
        Ok(match side {
            Side::Int => Ty::Int,
            Side::String => Ty::String,
            Side::Bytes => Ty::Bytes,
            Side::Fact(predicate) => {
                Ty::Fact(fjord_schema::schema::PredicateId(predicate))
            }
            Side::Error => Ty::Error,
            Side::Schema(number) => {
                if self.sizes[usize::from(number)] > MOST_NODES {
                    return Err(crate::TOO_LARGE);
                }
                crate::probed::probe::declared(&self.base.types[usize::from(number)])
            }
            Side::Unknown(number) => self.unknowns[usize::from(number)].clone(),
            Side::Record(number) => self.records[usize::from(number)].clone(),
        })
    }

    fn record(&self, fields: &[(u16, Side)]) -> Result<Ty, &'static str> {
        let fields = fields
            .iter()
            .map(|(name, side)| Ok((self.base.symbols[usize::from(*name)], self.ty(*side)?)))
            .collect::<Result<Vec<_>, &'static str>>()?;
        Ok(Ty::Record(fields.into()))
    }

    fn reason(&self, failure: crate::counted::probe::Failure) -> Reason {
        use crate::counted::probe::Failure;
        match failure {
            Failure::Mismatch => Reason::Mismatch,
            Failure::UnionMismatch => Reason::UnionMismatch,
            Failure::UnknownField(name) => Reason::UnknownField(self.base.numbers[&name]),
            Failure::Infinite => Reason::Infinite,
        }
    }
}

/// The nodes that each type has when written out, shared ones as often as they stand in it.
fn sizes(types: &[Type]) -> Vec<u64> {
    let mut sizes: Vec<u64> = vec![];
    for ty in types {
        let size = match ty {
            Type::Record(fields) => fields.iter().fold(1, |sum: u64, (_, part)| {
                sum.saturating_add(sizes[usize::from(*part)])
            }),
            Type::Union(alternatives) => alternatives.iter().fold(1, |sum: u64, (_, _, part)| {
                sum.saturating_add(sizes[usize::from(*part)])
            }),
            _ => 1,
        };
        sizes.push(size);
    }
    sizes
}

fn written(ty: &Ty, base: &Base) -> Vec<u8> {
    let mut lines = Lines::new(usize::MAX);
    lines.put_type(ty, &base.numbers);
    lines.into_bytes().expect("room for all")
}
