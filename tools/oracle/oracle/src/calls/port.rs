//! The port's side: a work slice as the reading would leave it, and the calls over its words.
//!
//! Where things stand is the port's (crates/work/specs/Layout.antt and crates/cells/specs/Words.antt);
//! the bindings are read off the words here.

use judge::calls::{Call, Other, Outcome, Reason, Side, Step};
use judge::{File, Limits, Type};
use linked::calls::{self, Ty, Unified};

const TYPE_COUNT: usize = 1;
const TYPES: usize = 272;
const FIELDS: usize = 1_424;
const RECORD_COUNT: usize = 9_616;
const UNKNOWNS: usize = 9_620;
const RECORDS: usize = 9_648;
const RECORD_FIELDS: usize = 10_160;
const UNDO_LEN: usize = 13_744;
const BINDINGS: usize = 13_745;
const END: usize = 15_793;

const INT: u32 = 1;
const STRING: u32 = 2;
const BYTES: u32 = 3;
const FACT: u32 = 4;
const RECORD: u32 = 5;
const UNION: u32 = 6;
const VAR: u32 = 7;
const ERROR: u32 = 8;

/// The first cell that is no schema type.
const FIRST_MADE: u32 = 256;

/// Room for so many unknowns, records and fields of records.
const ROOM: usize = 512;

/// The calls of the static library.
pub struct Port;

impl Other for Port {
    fn run(&mut self, file: &File, visits: u64, calls: &[Call]) -> Option<Vec<Step>> {
        fits(calls).then(|| {
            let mut run = Run::new(file, visits);
            let steps = run.steps(calls);
            run.look_around(file);
            steps
        })
    }
}

fn fits(calls: &[Call]) -> bool {
    let (mut unknowns, mut records, mut fields) = (0, 0, 0);
    for call in calls {
        match call {
            Call::Fresh => unknowns += 1,
            Call::Record(parts) => {
                records += 1;
                fields += parts.len();
            }
            _ => {}
        }
    }
    unknowns <= ROOM && records <= ROOM && fields <= ROOM
}

/// A list being made.
struct Run {
    work: Vec<u32>,
    left: u32,
    /// By number in the list.
    unknowns: Vec<u32>,
    records: Vec<u32>,
    marks: Vec<u32>,
}

impl Run {
    fn new(file: &File, visits: u64) -> Self {
        Run {
            work: work(file),
            left: u32::try_from(visits).expect("visits of four bytes"),
            unknowns: vec![],
            records: vec![],
            marks: vec![],
        }
    }

    fn steps(&mut self, calls: &[Call]) -> Vec<Step> {
        let mut steps = vec![];
        for call in calls {
            let outcome = self.call(call);
            steps.push(Step {
                outcome,
                left: u64::from(self.left),
                bindings: self.bindings(),
            });
            if outcome == Outcome::OutOfVisits {
                break;
            }
        }
        steps
    }

    fn call(&mut self, call: &Call) -> Outcome {
        match call {
            Call::Fresh => {
                let unknown = calls::fresh(&mut self.work);
                self.unknowns.push(unknown);
            }
            Call::Record(fields) => {
                let count = fields.len() as u32;
                let from = calls::reserve(&mut self.work, count);
                for (at, (name, side)) in (from..).zip(fields) {
                    let ty = self.ty(*side);
                    calls::put_field(&mut self.work, at, u32::from(*name), ty);
                }
                let cell = calls::new_record(&mut self.work, from, count);
                self.records.push(cell);
            }
            Call::Unify(found, expected) => {
                let (found, expected) = (self.ty(*found), self.ty(*expected));
                let Unified { number, left, name } =
                    calls::unify(&mut self.work, found, expected, self.left);
                self.left = left;
                assert!(number == 3 || name == 0, "a name that no field has");
                return match number {
                    0 => Outcome::Done,
                    1 => Outcome::Failed(Reason::Mismatch),
                    2 => Outcome::Failed(Reason::UnionMismatch),
                    3 => Outcome::Failed(Reason::UnknownField(name as u16)),
                    4 => Outcome::Failed(Reason::Infinite),
                    5 => Outcome::OutOfVisits,
                    other => panic!("a unification ended with {other}"),
                };
            }
            Call::Snapshot => self.marks.push(calls::snapshot(&self.work)),
            Call::Rollback(to) => {
                calls::rollback(&mut self.work, self.marks[usize::from(*to)]);
            }
            Call::Spend(visits) => {
                if *visits > u64::from(self.left) {
                    return Outcome::OutOfVisits;
                }
                self.left -= *visits as u32;
            }
        }
        Outcome::Done
    }

    fn ty(&self, side: Side) -> Ty {
        let (tag, payload) = match side {
            Side::Int => (INT, 0),
            Side::String => (STRING, 0),
            Side::Bytes => (BYTES, 0),
            Side::Fact(predicate) => (FACT, predicate),
            Side::Error => (ERROR, 0),
            Side::Schema(number) => return self.declared(u32::from(number)),
            Side::Unknown(number) => (VAR, self.unknowns[usize::from(number)]),
            Side::Record(number) => (RECORD, self.records[usize::from(number)]),
        };
        Ty { tag, payload }
    }

    /// The schema type of this number.
    fn declared(&self, number: u32) -> Ty {
        let at = TYPES + 2 * number as usize;
        let tag = self.work[at] % 16;
        let payload = match tag {
            RECORD | UNION => number,
            _ => self.work[at + 1],
        };
        Ty { tag, payload }
    }

    fn bindings(&self) -> Vec<Option<Vec<u8>>> {
        let unknowns = self.work[UNKNOWNS] as usize;
        self.work[BINDINGS..]
            .chunks_exact(2)
            .take(unknowns)
            .map(|slot| {
                let (tag, payload) = (slot[0], slot[1]);
                (tag != 0).then(|| {
                    let mut written = vec![];
                    self.write(Ty { tag, payload }, &mut written);
                    written
                })
            })
            .collect()
    }

    /// A type as an answer writes it, unknowns unresolved.
    fn write(&self, ty: Ty, written: &mut Vec<u8>) {
        match ty.tag {
            INT => put(written, &[0]),
            STRING => put(written, &[1]),
            BYTES => put(written, &[2]),
            FACT => {
                put(written, &[3]);
                put(written, &ty.payload.to_be_bytes());
            }
            RECORD if ty.payload < FIRST_MADE => {
                let at = TYPES + 2 * ty.payload as usize;
                let (count, from) = (self.work[at] / 16, FIELDS + self.work[at + 1] as usize);
                put(written, &[4]);
                put(written, &two(count));
                for field in &self.work[from..from + count as usize] {
                    put(written, &two(field / 256));
                    self.write(self.declared(field % 256), written);
                }
            }
            RECORD => {
                let cell = self.work[RECORDS + (ty.payload - FIRST_MADE) as usize];
                let (count, from) = (cell % 1_024, RECORD_FIELDS + 2 * (cell / 1_024) as usize);
                put(written, &[4]);
                put(written, &two(count));
                for field in self.work[from..from + 2 * count as usize].chunks_exact(2) {
                    let (tag, payload) = (field[0] % 16, field[1]);
                    put(written, &two(field[0] / 16));
                    self.write(Ty { tag, payload }, written);
                }
            }
            UNION => {
                let at = TYPES + 2 * ty.payload as usize;
                let (count, from) = (self.work[at] / 16, FIELDS + self.work[at + 1] as usize);
                put(written, &[5]);
                put(written, &two(count));
                for alternative in self.work[from..from + 2 * count as usize].chunks_exact(2) {
                    put(written, &two(alternative[1] / 256));
                    put(written, &alternative[0].to_be_bytes());
                    self.write(self.declared(alternative[1] % 256), written);
                }
            }
            VAR => {
                put(written, &[6]);
                put(written, &two(ty.payload));
            }
            ERROR => put(written, &[7]),
            other => panic!("a type with tag {other}"),
        }
    }

    /// The calls leave alone what the reading writes, the regions of a whole run, and what is past the
    /// end.
    fn look_around(&self, file: &File) {
        let before = work(file);
        for (from, to) in [
            (0, RECORD_COUNT),
            (RECORD_FIELDS + 2 * ROOM, UNDO_LEN),
            (END, before.len()),
        ] {
            assert!(
                self.work[from..to] == before[from..to],
                "a call writes into words {from} to {to}"
            );
        }
    }
}

/// The work slice of a file before the first call. What no call may read is ff.
fn work(file: &File) -> Vec<u32> {
    let mut work = vec![u32::MAX; Limits::default().words];
    work[TYPE_COUNT] = file.types.len() as u32;
    let mut parts: Vec<u32> = vec![];
    for (number, ty) in file.types.iter().enumerate() {
        let from = parts.len() as u32;
        let part = |name: &u16, ty: &u16| u32::from(*name) * 256 + u32::from(*ty);
        let at = TYPES + 2 * number;
        match ty {
            Type::Int => work[at] = INT,
            Type::String => work[at] = STRING,
            Type::Bytes => work[at] = BYTES,
            Type::Fact(predicate) => {
                work[at] = FACT;
                work[at + 1] = u32::from(*predicate);
            }
            Type::Record(fields) => {
                work[at] = RECORD + 16 * fields.len() as u32;
                work[at + 1] = from;
                parts.extend(fields.iter().map(|(name, ty)| part(name, ty)));
            }
            Type::Union(alternatives) => {
                work[at] = UNION + 16 * alternatives.len() as u32;
                work[at + 1] = from;
                for (name, discriminant, ty) in alternatives {
                    parts.extend([*discriminant, part(name, ty)]);
                }
            }
        }
    }
    work[FIELDS..RECORD_COUNT][..parts.len()].copy_from_slice(&parts);
    calls::begin(&mut work);
    work
}

fn put(written: &mut Vec<u8>, bytes: &[u8]) {
    const DIGITS: &[u8; 16] = b"0123456789abcdef";
    for byte in bytes {
        written.push(DIGITS[usize::from(byte >> 4)]);
        written.push(DIGITS[usize::from(byte & 15)]);
    }
}

/// A number in two bytes.
fn two(number: u32) -> [u8; 2] {
    u16::try_from(number)
        .expect("a number of two bytes")
        .to_be_bytes()
}
