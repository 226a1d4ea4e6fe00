//! Card 14: a schema that grows while queries stay.

use std::error::Error;
use std::fmt;

/// A premise that fails: the queries of the old file may have other answers in the new one.
#[derive(Clone, Copy, Debug, PartialEq, Eq, Hash)]
#[non_exhaustive]
pub enum Premise {
    /// The old file is turned down by one of refusals 1 to 10 and 13.
    OldRefused,
    /// The new file is.
    NewRefused,
    /// The new file differs by more than names, types and predicates, each after all old ones of its kind.
    OtherChange,
    /// The old file names a predicate, in a type or in a node, by a number that it has none for.
    NamesAbsent,
    /// A number that this version of the crate has no name for.
    Other(u8),
}

impl Premise {
    /// The premise of a number; 0 is none.
    ///
    /// ```
    /// use sigla::Premise;
    /// assert_eq!((0..=4).map(|n| Premise::from_number(n).map_or(0, Premise::number)).collect::<Vec<_>>(), [0, 1, 2, 3, 4]);
    /// assert_eq!(Premise::from_number(9), Some(Premise::Other(9)));
    /// ```
    pub fn from_number(number: u8) -> Option<Premise> {
        Some(match number {
            0 => return None,
            1 => Premise::OldRefused,
            2 => Premise::NewRefused,
            3 => Premise::OtherChange,
            4 => Premise::NamesAbsent,
            other => Premise::Other(other),
        })
    }

    /// The number that the program `sigla_growth` prints.
    pub fn number(self) -> u8 {
        match self {
            Premise::OldRefused => 1,
            Premise::NewRefused => 2,
            Premise::OtherChange => 3,
            Premise::NamesAbsent => 4,
            Premise::Other(number) => number,
        }
    }
}

impl fmt::Display for Premise {
    fn fmt(&self, f: &mut fmt::Formatter<'_>) -> fmt::Result {
        f.write_str(match self {
            Premise::OldRefused => "the old file is turned down",
            Premise::NewRefused => "the new file is turned down",
            Premise::OtherChange => "the new file differs by more than names, types and predicates after the old ones of their kind",
            Premise::NamesAbsent => "the old file names a predicate by a number that it has none for",
            Premise::Other(_) => "a premise that this version does not know",
        })
    }
}

impl Error for Premise {}

unsafe extern "C" {
    fn sigla_growth(old: *const u8, old_len: usize, new: *const u8, new_len: usize, work: *mut u32, work_len: usize) -> u8;
}

/// Whether the queries of the old file keep their answers in the new one, byte for byte; else the first premise that fails. The work
/// slice is zero afterwards.
///
/// ```
/// let old = b"01020020\n05000000000000000000\n060000\n";
/// let new = b"01020020\n0278\n0300\n05000000000000000000\n060000\n";
/// let mut work = vec![0; sigla::WORDS];
/// assert_eq!(sigla::growth(old, new, &mut work), Ok(()));
/// assert_eq!(sigla::growth(new, old, &mut work), Err(sigla::Premise::OtherChange));
/// assert_eq!(sigla::growth(old, b"", &mut work), Err(sigla::Premise::NewRefused));
/// ```
pub fn growth(old: &[u8], new: &[u8], work: &mut [u32]) -> Result<(), Premise> {
    // SAFETY: each pointer goes with the length of the slice that it comes from; the one that is written is borrowed for writing, so it
    // overlaps no other; the library keeps no pointer.
    let number = unsafe { sigla_growth(old.as_ptr(), old.len(), new.as_ptr(), new.len(), work.as_mut_ptr(), work.len()) };
    Premise::from_number(number).map_or(Ok(()), Err)
}
