//! The type checker of Sigla queries. The code behind it is proved to answer, for every file and every two slices, what its definition
//! gives (docs/PROMISE.md); this crate is the way to it from Rust, and is tested, not proved.
//!
//! - [`Form`] builds a file: names, a schema and queries, by handles.
//! - [`answer`] types the queries of a file and gives the [`Answer`] parsed; [`check`] is the call on your own slices.
//! - [`lamp`] tells only whether there is a diagnostic.
//! - [`Group::check`] is the call at a desk of a cabinet with a pool of visits; [`Tally`] sums visits up to a bill.
//! - [`widen`] and [`narrow`] turn files of the older edition into this one and back.
//! - [`growth`] tells whether queries keep their answers under a larger schema.
//! - [`load`] makes the test file of a seed.
//! - [`inspect`] solves one unification of a file's run in another way and shows its bindings.
//!
//! A file that is turned down is a [`Refusal`], by the numbers of docs/FORMAT.md; [`refused_line`] finds the line. Nothing here panics on what a file or an answer holds.
//!
//! ```
//! use sigla::{Form, Span, Statement};
//!
//! // x where sample x; x < 3
//! let mut form = Form::new(2, 32);
//! let text = form.string()?;
//! let sample = form.predicate("sample", text, None)?;
//! let mut query = form.query()?;
//! let key = query.variable(Span::new(15, 16), "x")?;
//! let fact = query.fact(Span::new(8, 16), sample, key)?;
//! let left = query.variable(Span::new(18, 19), "x")?;
//! let right = query.integer(Span::new(22, 23))?;
//! let head = query.variable(Span::new(0, 1), "x")?;
//! query.ask(head, vec![Statement::Holds(fact), Statement::Compares(left, right)])?;
//!
//! let answer = sigla::answer(&form.file()?)?;
//! let diagnostic = &answer.queries[0].diagnostics[0];
//! assert_eq!(diagnostic.to_string(), "22..23: reject/type-mismatch: expected a string, found an integer");
//! # Ok::<(), Box<dyn std::error::Error>>(())
//! ```

#![deny(missing_docs)]

mod answer;
mod desk;
mod file;
mod form;
mod growth;
mod inspect;
mod load;
mod refusal;
mod ty;

pub use answer::{Answer, Diagnostic, Failure, NoAnswer, Typed};
pub use desk::{Desk, Group, Tally};
pub use file::{Asked, File, NoFile, NodeFrame, PredicateFrame, QueryFrames, Shape, StatementFrame, TypeFrame};
pub use form::{Form, Limit, Node, Predicate, Query, Span, Statement, Type};
pub use growth::{Premise, growth};
pub use inspect::{Binding, Inspected, LENT, bindings, inspect};
pub use load::{LOAD, load};
pub use refusal::Refusal;
pub use ty::{Alternative, Field, Names, Shown, Tree, Ty};

/// The version of this crate, that of the file VERSION.
pub const VERSION: &str = env!("CARGO_PKG_VERSION");

/// The version of the library that the program runs with, as [`VERSION`] is spelled.
///
/// ```
/// assert_eq!(sigla::library_version(), sigla::VERSION);
/// ```
pub fn library_version() -> String {
    // SAFETY: the call takes nothing and gives a number.
    let [_, major, minor, patch] = unsafe { sigla_version() }.to_be_bytes();
    format!("{major}.{minor}.{patch}")
}

/// The words that must be lent.
pub const WORDS: usize = 16384;

/// The answer bytes that the program lends.
pub const BYTES: usize = 65536;

/// Bytes of stack that suffice for a call and for what this crate reads of its answer. For the call alone 262,144 do (`SIGLA_STACK` of sigla.h).
pub const STACK: usize = 1_048_576;

/// The most queries of a file.
pub const QUERIES: usize = 64;

unsafe extern "C" {
    fn sigla_version() -> u32;
    fn sigla_check(file: *const u8, file_len: usize, work: *mut u32, work_len: usize, answer: *mut u8, answer_len: usize) -> u8;
    fn sigla_lamp(file: *const u8, file_len: usize, work: *mut u32, work_len: usize, lit: *mut u32) -> u8;
    fn sigla_widen(file: *const u8, file_len: usize, work: *mut u32, work_len: usize, out: *mut u8, out_len: usize) -> u8;
    fn sigla_narrow(file: *const u8, file_len: usize, work: *mut u32, work_len: usize, out: *mut u8, out_len: usize) -> u8;
}

/// The bytes before the first zero.
fn length(out: &[u8]) -> usize {
    out.iter().position(|&byte| byte == 0).unwrap_or(out.len())
}

/// A file of the narrow edition (predicate references of 2 bytes) in the wide one, which alone [`check`] reads: it stands at the start of
/// `out`, and its length comes back; zeros follow it. After a refusal both slices are zero throughout.
///
/// ```
/// let old = b"01020020\n05000000000000000004\n050000000000000000 0d00070000\n060001\n".to_vec();
/// let old: Vec<u8> = old.into_iter().filter(|&byte| byte != b' ').collect();
/// let (mut work, mut out) = (vec![0; sigla::WORDS], vec![0; sigla::BYTES]);
/// let n = sigla::widen(&old, &mut work, &mut out)?;
/// assert!(out[..n].windows(14).any(|digits| digits == b"0d000000070000"));
/// let wide = out[..n].to_vec();
/// let n = sigla::narrow(&wide, &mut work, &mut out)?;
/// assert_eq!(out[..n], old);
/// # Ok::<(), sigla::Refusal>(())
/// ```
pub fn widen(file: &[u8], work: &mut [u32], out: &mut [u8]) -> Result<usize, Refusal> {
    // SAFETY: as of `check`.
    let number = unsafe { sigla_widen(file.as_ptr(), file.len(), work.as_mut_ptr(), work.len(), out.as_mut_ptr(), out.len()) };
    Refusal::from_number(number).map_or_else(|| Ok(length(out)), Err)
}

/// A file of the wide edition in the narrow one; a number above 65,535 is [`Refusal::NumberTooWide`].
pub fn narrow(file: &[u8], work: &mut [u32], out: &mut [u8]) -> Result<usize, Refusal> {
    // SAFETY: as of `check`.
    let number = unsafe { sigla_narrow(file.as_ptr(), file.len(), work.as_mut_ptr(), work.len(), out.as_mut_ptr(), out.len()) };
    Refusal::from_number(number).map_or_else(|| Ok(length(out)), Err)
}

/// Types the queries of a file (docs/FORMAT.md). The answer's lines stand at the start of `answer`, and their length comes back; zeros
/// follow them. Where there is more than one query, a line 0b with its number stands before each one's lines: [`by_query`] takes them
/// apart. A refusal is for the whole file; after it both slices are zero throughout, and after an acceptance the work slice is.
///
/// ```
/// let (mut work, mut answer) = (vec![0; sigla::WORDS], vec![0; sigla::BYTES]);
/// let n = sigla::check(b"01020020\n05000000000000000000\n060000\n", &mut work, &mut answer)?;
/// assert_eq!(&answer[..n], b"07000000\n0900000000\n");
/// assert_eq!(sigla::check(b"", &mut work, &mut answer), Err(sigla::Refusal::MisplacedKind));
/// # Ok::<(), sigla::Refusal>(())
/// ```
pub fn check(file: &[u8], work: &mut [u32], answer: &mut [u8]) -> Result<usize, Refusal> {
    // SAFETY: each pointer goes with the length of the slice that it comes from; two of the slices are borrowed for writing, so none
    // overlaps another; the library keeps no pointer.
    let number = unsafe { sigla_check(file.as_ptr(), file.len(), work.as_mut_ptr(), work.len(), answer.as_mut_ptr(), answer.len()) };
    match Refusal::from_number(number) {
        None => Ok(length(answer)),
        Some(refusal) => Err(refusal),
    }
}

/// Whether a query of a file has a diagnostic. Each query runs until its first one, in the file's order, so this is quicker than
/// [`check`] where there is one; [`Refusal::TooManyVisits`] only where none came first. The work slice is zero throughout afterwards.
///
/// ```
/// let mut work = vec![0; sigla::WORDS];
/// assert_eq!(sigla::lamp(b"01020020\n05000000000000000000\n060000\n", &mut work), Ok(false));
/// assert_eq!(sigla::lamp(b"01020020\n05000000000000000004\n060000\n", &mut work), Ok(true)); // a wildcard head projects nothing
/// ```
pub fn lamp(file: &[u8], work: &mut [u32]) -> Result<bool, Refusal> {
    let mut lit = 0u32;
    // SAFETY: as of `check`.
    let number = unsafe { sigla_lamp(file.as_ptr(), file.len(), work.as_mut_ptr(), work.len(), &mut lit) };
    Refusal::from_number(number).map_or(Ok(lit == 1), Err)
}

/// Types the queries of a file with slices of its own, and parses the answer.
///
/// ```
/// let answer = sigla::answer(b"01020020\n05000000000000000000\n060000\n")?;
/// assert_eq!(answer.queries[0].types, [Some(sigla::Ty::Integer)]);
/// assert_eq!(sigla::answer(b""), Err(sigla::Failure::Refused(sigla::Refusal::MisplacedKind)));
/// # Ok::<(), sigla::Failure>(())
/// ```
pub fn answer(file: &[u8]) -> Result<Answer, Failure> {
    let mut work = vec![0u32; WORDS];
    let mut answer = vec![0u8; BYTES];
    let n = check(file, &mut work, &mut answer)?;
    Ok(Answer::parse(&answer[..n])?)
}

/// The line on which a file is turned down, from 1, by one of the refusals 3 to 10 and 13. None where no line is at fault: the file is
/// accepted, too long, without a last query, or its queries need too much. It asks [`check`] for the beginnings of the file, some ten times.
///
/// ```
/// assert_eq!(sigla::refused_line(b"01020020\n0278\n0278\n05000000000000000000\n060000\n"), Some(3)); // a name was given before
/// assert_eq!(sigla::refused_line(b"01020020\n0278\n"), None); // no query
/// ```
pub fn refused_line(file: &[u8]) -> Option<usize> {
    let (mut work, mut answer) = (vec![0u32; WORDS], vec![0u8; BYTES]);
    let mut outcome = |file: &[u8]| check(file, &mut work, &mut answer).err().map_or(0, Refusal::number);
    let refused = outcome(file);
    if !matches!(refused, 3..=10 | 13) {
        return None;
    }
    let ends: Vec<usize> = file.split_inclusive(|&byte| byte == b'\n').scan(0, |end, line| { *end += line.len(); Some(*end) }).collect();
    // The first lines have the fault where they get the refusal. A beginning without a query gets 4 for that, so for 4 an empty line is put
    // behind it, which gets 3 if nothing before it is at fault.
    let mut has = |lines: usize| {
        let first = &file[..ends[lines - 1]];
        if refused == 4 { outcome(&[first, b"\n"].concat()) == 4 } else { outcome(first) == refused }
    };
    if ends.is_empty() || !has(ends.len()) {
        return None;
    }
    let (mut low, mut high) = (1, ends.len());
    while low < high {
        let middle = (low + high) / 2;
        if has(middle) { high = middle } else { low = middle + 1 }
    }
    Some(low)
}

/// The lines of each query of an answer, in the file's order, without the lines 0b.
///
/// ```
/// let one = b"07000000\n0900000000\n";
/// let two = b"07000001\n0900000000\n";
/// assert_eq!(sigla::by_query(one), [one]);
/// assert_eq!(sigla::by_query(&[b"0b0000\n", &one[..], b"0b0001\n", two].concat()), [one, two]);
/// ```
pub fn by_query(answer: &[u8]) -> Vec<&[u8]> {
    let mut parts = Vec::new();
    let mut from = 0;
    let mut at = 0;
    for line in answer.split_inclusive(|&byte| byte == b'\n') {
        if line.starts_with(b"0b") {
            if at > 0 {
                parts.push(&answer[from..at]);
            }
            from = at + line.len();
        }
        at += line.len();
    }
    parts.push(&answer[from..]);
    parts
}
