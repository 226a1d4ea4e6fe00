//! Why a file is turned down.

use std::error::Error;
use std::fmt;

/// Why a file is turned down: docs/FORMAT.md has the refusals and their order.
#[derive(Clone, Copy, Debug, PartialEq, Eq, Hash)]
#[non_exhaustive]
pub enum Refusal {
    /// 1: the work slice has fewer than 16,384 words.
    WorkTooShort,
    /// 2: the file has more than 65,536 bytes.
    FileTooLong,
    /// 3: a line is empty, has an odd number of digits, another character, more than 512 bytes, or no LF.
    MalformedLine,
    /// 4: a kind is unknown or stands where it may not, or the file does not end with a query.
    MisplacedKind,
    /// 5: there are over 256 names, 256 types, 128 predicates, or 512 nodes of a query.
    TooMany,
    /// 6: a frame has an unknown shape, flag or statement byte, or is too short or too long for it.
    MalformedFrame,
    /// 7: a text is not UTF-8.
    BrokenText,
    /// 8: a name was given before.
    NameGivenBefore,
    /// 9: a reference is to a name, type or node that no earlier line gives, or to a node that was named before.
    BadReference,
    /// 10: a record type repeats a name, or a union type a discriminant.
    RepeatedKey,
    /// 11: a query needs more than 1,048,576 visits.
    TooManyVisits,
    /// 12: the answer is longer than the answer slice.
    AnswerTooLong,
    /// 13: there are more than 64 queries.
    TooManyQueries,
    /// 14: a predicate's number above 65,535 does not fit in the narrow edition.
    NumberTooWide,
    /// 15: a total of the tally would pass 32 bits, or its remainder is over 999.
    TallyTooLarge,
    /// 16: a query needs more visits than the desk's ceiling, which is under 1,048,576.
    CeilingPassed,
    /// 17: the desk number or the group of desks is outside the rules.
    OutsideTheRules,
    /// 18: the plain solver needs more words than were lent to it.
    TooFewWords,
    /// A number that this version of the crate has no name for.
    Other(u8),
}

/// Each number with its refusal and what it says.
const REFUSALS: [(u8, Refusal, &str); 18] = [
    (1, Refusal::WorkTooShort, "the work slice has fewer than 16,384 words"),
    (2, Refusal::FileTooLong, "the file has more than 65,536 bytes"),
    (3, Refusal::MalformedLine, "a line is empty, has an odd number of digits, another character, more than 512 bytes, or no LF"),
    (4, Refusal::MisplacedKind, "a kind is unknown or stands where it may not, or the file does not end with a query"),
    (5, Refusal::TooMany, "there are over 256 names, 256 types, 128 predicates, or 512 nodes of a query"),
    (6, Refusal::MalformedFrame, "a frame has an unknown shape, flag or statement byte, or is too short or too long for it"),
    (7, Refusal::BrokenText, "a text is not UTF-8"),
    (8, Refusal::NameGivenBefore, "a name was given before"),
    (9, Refusal::BadReference, "a reference is to a name, type or node that no earlier line gives, or to a node that was named before"),
    (10, Refusal::RepeatedKey, "a record type repeats a name, or a union type a discriminant"),
    (11, Refusal::TooManyVisits, "a query needs more than 1,048,576 visits"),
    (12, Refusal::AnswerTooLong, "the answer is longer than the answer slice"),
    (13, Refusal::TooManyQueries, "there are more than 64 queries"),
    (14, Refusal::NumberTooWide, "a predicate's number above 65,535 does not fit in the narrow edition"),
    (15, Refusal::TallyTooLarge, "a total of the tally would pass 32 bits, or its remainder is over 999"),
    (16, Refusal::CeilingPassed, "a query needs more visits than the desk's ceiling, which is under 1,048,576"),
    (17, Refusal::OutsideTheRules, "the desk number or the group of desks is outside the rules"),
    (18, Refusal::TooFewWords, "the plain solver needs more words than were lent to it"),
];

impl Refusal {
    /// The refusal of a number; 0 is none, and a number without a name is [`Refusal::Other`].
    ///
    /// ```
    /// use sigla::Refusal;
    /// assert_eq!(Refusal::from_number(0), None);
    /// assert_eq!(Refusal::from_number(12), Some(Refusal::AnswerTooLong));
    /// assert_eq!(Refusal::from_number(200), Some(Refusal::Other(200)));
    /// ```
    pub fn from_number(number: u8) -> Option<Refusal> {
        let known = REFUSALS.iter().find(|row| row.0 == number).map(|row| row.1);
        match (number, known) {
            (0, _) => None,
            (_, Some(refusal)) => Some(refusal),
            (n, None) => Some(Refusal::Other(n)),
        }
    }

    /// The number that is printed after 0f.
    ///
    /// ```
    /// assert_eq!(sigla::Refusal::TooManyQueries.number(), 13);
    /// ```
    pub fn number(self) -> u8 {
        match self {
            Refusal::Other(n) => n,
            known => REFUSALS.iter().find(|row| row.1 == known).map_or(0, |row| row.0),
        }
    }

    /// What it says, in a line.
    pub fn reason(self) -> &'static str {
        REFUSALS.iter().find(|row| row.1 == self).map_or("turned down for a reason that this version does not know", |row| row.2)
    }
}

impl fmt::Display for Refusal {
    fn fmt(&self, f: &mut fmt::Formatter<'_>) -> fmt::Result {
        write!(f, "refused ({}): {}", self.number(), self.reason())
    }
}

impl Error for Refusal {}
