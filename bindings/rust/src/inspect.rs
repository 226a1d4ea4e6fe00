//! Card 12: a plain solver beside the first.

use std::fmt;

use crate::answer::DEPTH;
use crate::{Alternative, Failure, Field, NoAnswer, Refusal, Ty};

/// The words that the program lends to the plain solver.
pub const LENT: usize = 65536;

/// What the plain solver tells of a unification.
#[derive(Clone, Debug, PartialEq, Eq)]
pub enum Inspected {
    /// The two types can be made equal: the bindings, the newest first, each with every bound unknown replaced.
    Success(Vec<Binding>),
    /// They can't, and the check's unification fails there too.
    Failure,
    /// One of them reaches an Error or a record that names a field twice.
    ShutOut,
    /// The file's run has fewer entries.
    Fewer,
}

/// What an unknown is bound to. It is shown as the program `sigla_inspect` prints it; [`Ty::shown`] and [`Ty::tree`] show its type with names.
///
/// ```
/// use sigla::{Binding, Field, Ty};
/// let fields = vec![Field { name: 3, ty: Ty::Integer }, Field { name: 7, ty: Ty::Open(2) }];
/// let binding = Binding { unknown: 5, ty: Ty::Record(fields) };
/// assert_eq!(binding.to_string(), "?5 = record 2 .3 Int .7 ?2");
/// assert_eq!(sigla::bindings(&[11, 5, 5, 2, 9, 3, 1, 9, 7, 7, 2, 0, 0]), Ok(vec![binding]));
/// ```
#[derive(Clone, Debug, PartialEq, Eq)]
pub struct Binding {
    /// The number by which an answer has it where it stays open.
    pub unknown: u16,
    /// Its type.
    pub ty: Ty,
}

impl fmt::Display for Binding {
    fn fmt(&self, f: &mut fmt::Formatter<'_>) -> fmt::Result {
        write!(f, "?{} =", self.unknown)?;
        written(&self.ty, f)
    }
}

fn written(ty: &Ty, f: &mut fmt::Formatter<'_>) -> fmt::Result {
    match ty {
        Ty::Integer => write!(f, " Int"),
        Ty::String => write!(f, " String"),
        Ty::Bytes => write!(f, " Bytes"),
        Ty::Fact(predicate) => write!(f, " fact {predicate}"),
        Ty::Record(fields) => {
            write!(f, " record {}", fields.len())?;
            fields.iter().try_for_each(|field| {
                write!(f, " .{}", field.name)?;
                written(&field.ty, f)
            })
        }
        Ty::Union(alternatives) => {
            write!(f, " union {}", alternatives.len())?;
            alternatives.iter().try_for_each(|part| {
                write!(f, " |{} .{}", part.name, part.discriminant)?;
                written(&part.ty, f)
            })
        }
        Ty::Open(unknown) => write!(f, " ?{unknown}"),
        Ty::Error => write!(f, " Error"),
    }
}

unsafe extern "C" {
    fn sigla_inspect(
        file: *const u8,
        file_len: usize,
        n: u32,
        work: *mut u32,
        work_len: usize,
        lent: *mut u32,
        lent_len: usize,
        told: *mut u32,
    ) -> u8;
}

/// The n-th unification of a file's run, solved by the plain solver (docs/FORMAT.md, "The plain solver"). The entries from outside the
/// unification are counted from 0 over the runs of all queries. It works in `lent`; where that is too short, it is
/// [`Refusal::TooFewWords`], after all other refusals, and [`LENT`] words are what the program lends. After a success `lent` holds the
/// bindings as words and then zeros, else zeros alone; the work slice is zero after each. Failures are refusals, unless the library writes
/// words that this version of the crate does not know.
///
/// ```
/// use sigla::{Failure, Inspected, Refusal};
/// // x where sample {pen = x}, with `sample` keyed by {pen : string}
/// let file = b"01020020\n\
///     0270656e\n0273616d706c65\n0278\n0301\n030400000000\n040001000100\n\
///     050000001600000017030002\n050000000f000000180800000000\n0500000008000000180d000000000001\n050000000000000001030002\n\
///     060003010002\n";
/// let (mut work, mut lent) = (vec![0; sigla::WORDS], vec![0; sigla::LENT]);
/// let Inspected::Success(bindings) = sigla::inspect(file, 0, &mut work, &mut lent)? else { panic!("a string is no failure") };
/// assert_eq!(bindings.iter().map(ToString::to_string).collect::<Vec<_>>(), ["?0 = String"]);
/// assert_eq!(sigla::inspect(file, 1, &mut work, &mut lent)?, Inspected::Fewer);
/// assert_eq!(sigla::inspect(file, 0, &mut work, &mut lent[..5]), Err(Failure::Refused(Refusal::TooFewWords)));
/// # Ok::<(), Failure>(())
/// ```
pub fn inspect(file: &[u8], n: u32, work: &mut [u32], lent: &mut [u32]) -> Result<Inspected, Failure> {
    let mut told = 0;
    // SAFETY: each pointer goes with the length of the slice that it comes from; two of the slices are borrowed for writing, so none
    // overlaps another; the last is that of a local; the library keeps no pointer.
    let number = unsafe {
        sigla_inspect(file.as_ptr(), file.len(), n, work.as_mut_ptr(), work.len(), lent.as_mut_ptr(), lent.len(), &mut told)
    };
    if let Some(refusal) = Refusal::from_number(number) {
        return Err(Failure::Refused(refusal));
    }
    Ok(match told {
        0 => Inspected::Failure,
        1 => Inspected::Success(bindings(lent)?),
        2 => Inspected::ShutOut,
        3 => Inspected::Fewer,
        _ => return Err(Failure::Unreadable(NoAnswer { line: 1, what: "told what this version does not know" })),
    })
}

/// The bindings in the words that the plain solver leaves: up to a zero where the next would begin, or to the end. A fault has the number
/// of its binding, from 1, as its line: the program prints each in one.
///
/// ```
/// assert_eq!(sigla::bindings(&[0, 7]), Ok(vec![]));
/// assert_eq!(sigla::bindings(&[11, 0, 1, 11, 1, 4]).map_err(|fault| fault.line), Err(2));
/// ```
pub fn bindings(words: &[u32]) -> Result<Vec<Binding>, NoAnswer> {
    let mut rest = Words { words };
    let mut found = Vec::new();
    while rest.words.first().is_some_and(|&word| word != 0) {
        let binding = rest.binding().ok_or(NoAnswer { line: found.len() + 1, what: "not a binding" })?;
        found.push(binding);
    }
    Ok(found)
}

/// The words still to be read.
struct Words<'a> {
    words: &'a [u32],
}

impl Words<'_> {
    fn word(&mut self) -> Option<u32> {
        let (&first, rest) = self.words.split_first()?;
        self.words = rest;
        Some(first)
    }

    /// The number of a name or an unknown, which an answer has in 2 bytes.
    fn half(&mut self) -> Option<u16> {
        self.word()?.try_into().ok()
    }

    /// The number after this word.
    fn after(&mut self, kind: u32) -> Option<u32> {
        if self.word()? == kind { self.word() } else { None }
    }

    fn half_after(&mut self, kind: u32) -> Option<u16> {
        self.after(kind)?.try_into().ok()
    }

    fn binding(&mut self) -> Option<Binding> {
        Some(Binding { unknown: self.half_after(11)?, ty: self.ty(DEPTH)? })
    }

    /// In loops, without closures between one call and the next: the deepest type is read on the stated stack.
    fn ty(&mut self, depth: usize) -> Option<Ty> {
        let depth = depth.checked_sub(1)?;
        Some(match self.word()? {
            1 => Ty::Integer,
            2 => Ty::String,
            3 => Ty::Bytes,
            4 => Ty::Fact(self.word()?),
            5 => {
                let mut fields = Vec::new();
                for _ in 0..self.word()? {
                    fields.push(Field { name: self.half_after(9)?, ty: self.ty(depth)? });
                }
                Ty::Record(fields)
            }
            6 => {
                let mut alternatives = Vec::new();
                for _ in 0..self.word()? {
                    alternatives.push(Alternative { name: self.half_after(10)?, discriminant: self.after(9)?, ty: self.ty(depth)? });
                }
                Ty::Union(alternatives)
            }
            7 => Ty::Open(self.half()?),
            8 => Ty::Error,
            _ => return None,
        })
    }
}
