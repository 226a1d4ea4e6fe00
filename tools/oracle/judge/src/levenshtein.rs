//! Stand-in for `levenshtein`: its two limits, which here come from the file.
//!
//! ty.rs compares with them and prints them, so they are constants of a type that looks the value
//! up when it is compared or printed.

use std::cell::Cell;
use std::cmp::Ordering;
use std::fmt;

thread_local! {
    static LIMITS: Cell<(u8, u16)> = const { Cell::new((0, 0)) };
}

/// Sets both limits for the checks that this thread makes from now on.
pub(crate) fn set(max_distance: u8, max_term_chars: u16) {
    LIMITS.set((max_distance, max_term_chars));
}

/// The largest edit distance.
pub const MAX_DISTANCE: MaxDistance = MaxDistance;
/// The largest length of a term in characters.
pub const MAX_TERM_CHARS: MaxTermChars = MaxTermChars;

pub struct MaxDistance;
pub struct MaxTermChars;

impl MaxDistance {
    fn get(&self) -> u8 {
        LIMITS.get().0
    }
}

impl MaxTermChars {
    fn get(&self) -> usize {
        usize::from(LIMITS.get().1)
    }
}

impl PartialEq<MaxDistance> for u8 {
    fn eq(&self, limit: &MaxDistance) -> bool {
        *self == limit.get()
    }
}

impl PartialOrd<MaxDistance> for u8 {
    fn partial_cmp(&self, limit: &MaxDistance) -> Option<Ordering> {
        Some(self.cmp(&limit.get()))
    }
}

impl fmt::Display for MaxDistance {
    fn fmt(&self, f: &mut fmt::Formatter<'_>) -> fmt::Result {
        self.get().fmt(f)
    }
}

impl PartialEq<MaxTermChars> for usize {
    fn eq(&self, limit: &MaxTermChars) -> bool {
        *self == limit.get()
    }
}

impl PartialOrd<MaxTermChars> for usize {
    fn partial_cmp(&self, limit: &MaxTermChars) -> Option<Ordering> {
        Some(self.cmp(&limit.get()))
    }
}

impl fmt::Display for MaxTermChars {
    fn fmt(&self, f: &mut fmt::Formatter<'_>) -> fmt::Result {
        self.get().fmt(f)
    }
}

/// Which part of the stored string a fuzzy term is held against. The check never looks at it.
#[derive(Debug, Clone, Copy, PartialEq, Eq)]
pub enum FuzzyAnchor {
    Whole,
    Prefix,
}
