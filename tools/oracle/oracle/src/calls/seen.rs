//! Counts of what the lists of a run reach.

use judge::calls::{Call, Outcome, Reason, Side, Step};
use judge::{File, Type};

use super::list::List;

#[derive(Default)]
pub struct Seen {
    pub lists: u64,
    pub no_schema: u64,
    pub left_out: u64,
    /// Lists that the port has no room for.
    pub no_room: u64,
    /// Lists that the port made too, and their steps.
    pub compared: u64,
    steps: u64,
    succeeded: u64,
    mismatch: u64,
    union_mismatch: u64,
    unknown_field: u64,
    infinite: u64,
    out_in_unify: u64,
    out_between: u64,
    rollbacks: u64,
    /// Rollbacks that freed an unknown.
    freeing: u64,
    /// Of two records with the same names.
    in_order: Met,
    reordered: Met,
    repeated: Met,
    unions: Met,
    errors: Met,
    most_unknowns: usize,
    most_bound: usize,
}

/// Unifications of a kind, and those that succeeded.
#[derive(Default)]
struct Met {
    all: u64,
    succeeded: u64,
}

impl Met {
    fn add(&mut self, outcome: Outcome) {
        self.all += 1;
        self.succeeded += u64::from(outcome == Outcome::Done);
    }
}

impl Seen {
    pub fn add(&mut self, file: &File, list: &List, steps: &[Step]) {
        self.lists += 1;
        let mut before: &[Option<Vec<u8>>] = &[];
        for (call, step) in list.calls.iter().zip(steps) {
            match (call, step.outcome) {
                (Call::Unify(found, expected), outcome) => {
                    match outcome {
                        Outcome::Done => self.succeeded += 1,
                        Outcome::Failed(Reason::Mismatch) => self.mismatch += 1,
                        Outcome::Failed(Reason::UnionMismatch) => self.union_mismatch += 1,
                        Outcome::Failed(Reason::UnknownField(_)) => self.unknown_field += 1,
                        Outcome::Failed(Reason::Infinite) => self.infinite += 1,
                        Outcome::OutOfVisits => self.out_in_unify += 1,
                    }
                    let head = |side: &Side| head(*side, file, list, before);
                    self.met(head(found), head(expected), outcome);
                }
                (_, Outcome::OutOfVisits) => self.out_between += 1,
                (Call::Rollback(_), _) => {
                    self.rollbacks += 1;
                    self.freeing += u64::from(bound(&step.bindings) < bound(before));
                }
                _ => {}
            }
            before = &step.bindings;
        }
    }

    /// The port made these steps too.
    pub fn compared(&mut self, steps: &[Step]) {
        self.compared += 1;
        self.steps += steps.len() as u64;
        for step in steps {
            self.most_unknowns = self.most_unknowns.max(step.bindings.len());
            self.most_bound = self.most_bound.max(bound(&step.bindings));
        }
    }

    fn met(&mut self, found: Head, expected: Head, outcome: Outcome) {
        match (found, expected) {
            (Head::Record(found), Head::Record(expected)) => {
                let names = |names: &[u16]| {
                    let mut names = names.to_vec();
                    names.sort_unstable();
                    let all = names.len();
                    names.dedup();
                    (all != names.len(), names)
                };
                let ((twice, one), (twice_too, other)) = (names(&found), names(&expected));
                if one != other || found.len() != expected.len() {
                    return;
                }
                match (twice || twice_too, found == expected) {
                    (true, _) => self.repeated.add(outcome),
                    (false, true) => self.in_order.add(outcome),
                    (false, false) => self.reordered.add(outcome),
                }
            }
            (Head::Union, Head::Union) => self.unions.add(outcome),
            (Head::Error, _) | (_, Head::Error) => self.errors.add(outcome),
            _ => {}
        }
    }

    pub fn print(&self) {
        println!(
            "unifications: {} succeeded; failed: {} mismatch, {} union mismatch, {} unknown field, {} infinite",
            self.succeeded, self.mismatch, self.union_mismatch, self.unknown_field, self.infinite
        );
        println!(
            "  lists out of visits: {} within a unification, {} between",
            self.out_in_unify, self.out_between
        );
        let met = [
            ("records of the same names in order", &self.in_order),
            ("in another order", &self.reordered),
            ("with a name twice", &self.repeated),
            ("unions", &self.unions),
            ("an error and any", &self.errors),
        ];
        let met: Vec<String> = met
            .iter()
            .map(|(what, met)| format!("{what} {} ({} succeeded)", met.all, met.succeeded))
            .collect();
        println!("  met: {}", met.join(", "));
        println!(
            "  rollbacks: {}, of these {} freed an unknown",
            self.rollbacks, self.freeing
        );
        println!(
            "  compared with the port: {} steps, up to {} unknowns, {} of them bound; without room there: {} lists",
            self.steps, self.most_unknowns, self.most_bound, self.no_room
        );
    }
}

/// How many unknowns are bound.
fn bound(bindings: &[Option<Vec<u8>>]) -> usize {
    bindings.iter().flatten().count()
}

/// The outside of a resolved side.
enum Head {
    /// A record and its names.
    Record(Vec<u16>),
    Union,
    Error,
    Other,
}

fn head(side: Side, file: &File, list: &List, bindings: &[Option<Vec<u8>>]) -> Head {
    match side {
        Side::Error => Head::Error,
        Side::Schema(number) => match &file.types[usize::from(number)] {
            Type::Record(fields) => Head::Record(fields.iter().map(|(name, _)| *name).collect()),
            Type::Union(_) => Head::Union,
            _ => Head::Other,
        },
        Side::Record(number) => {
            let mut records = list.calls.iter().filter_map(|call| match call {
                Call::Record(fields) => Some(fields),
                _ => None,
            });
            let fields = records
                .nth(usize::from(number))
                .expect("a record that a call made");
            Head::Record(fields.iter().map(|(name, _)| *name).collect())
        }
        Side::Unknown(number) => match &bindings[usize::from(number)] {
            None => Head::Other,
            Some(written) => match super::number(written, 0, 2) {
                4 => Head::Record(super::names(written)),
                5 => Head::Union,
                6 => head(
                    Side::Unknown(super::number(written, 2, 4) as u16),
                    file,
                    list,
                    bindings,
                ),
                7 => Head::Error,
                _ => Head::Other,
            },
        },
        _ => Head::Other,
    }
}
