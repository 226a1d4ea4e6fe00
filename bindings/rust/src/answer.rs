//! An answer, parsed.

use std::error::Error;
use std::fmt;

use crate::form::Span;
use crate::refusal::Refusal;
use crate::ty::{Alternative, Field, Ty};

/// What was found of each query of a file.
#[derive(Clone, Debug, Default, PartialEq, Eq)]
pub struct Answer {
    /// In the file's order.
    pub queries: Vec<Typed>,
}

/// What was found of a query.
#[derive(Clone, Debug, Default, PartialEq, Eq)]
pub struct Typed {
    /// By node; none where a node was not looked at.
    pub types: Vec<Option<Ty>>,
    /// In the order in which they were made.
    pub diagnostics: Vec<Diagnostic>,
    /// Where a variable stands that is written only there, often a slip (lines 0c). None in answers of editions without such lines.
    pub once: Vec<Span>,
    /// The visits that the query made (line 09, its last).
    pub visits: Option<u32>,
}

/// What is wrong with a piece of a query.
#[derive(Clone, Debug, Default, PartialEq, Eq)]
pub struct Diagnostic {
    /// The piece of the query's text that it is about.
    pub span: Span,
    /// As `reject/type-mismatch`: docs/FORMAT.md has them all.
    pub code: String,
    /// None where the answer has codes alone.
    pub message: Option<String>,
}

impl fmt::Display for Diagnostic {
    fn fmt(&self, f: &mut fmt::Formatter<'_>) -> fmt::Result {
        write!(f, "{}..{}: {}", self.span.start, self.span.end, self.code)?;
        match &self.message {
            Some(message) => write!(f, ": {message}"),
            None => Ok(()),
        }
    }
}

/// An answer that is not one: the line, from 1, and what is wrong with it.
#[derive(Clone, Debug, PartialEq, Eq)]
pub struct NoAnswer {
    /// From 1.
    pub line: usize,
    /// What is wrong with it.
    pub what: &'static str,
}

impl fmt::Display for NoAnswer {
    fn fmt(&self, f: &mut fmt::Formatter<'_>) -> fmt::Result {
        write!(f, "line {}: {}", self.line, self.what)
    }
}

impl Error for NoAnswer {}

/// Why there is no parsed answer: the file is turned down, or the library writes lines that this version of the crate does not know.
#[derive(Clone, Debug, PartialEq, Eq)]
pub enum Failure {
    /// The file is turned down.
    Refused(Refusal),
    /// The answer can't be read; with the library of this version it always can.
    Unreadable(NoAnswer),
}

impl fmt::Display for Failure {
    fn fmt(&self, f: &mut fmt::Formatter<'_>) -> fmt::Result {
        match self {
            Failure::Refused(refusal) => refusal.fmt(f),
            Failure::Unreadable(fault) => write!(f, "an answer that can't be read, {fault}"),
        }
    }
}

impl Error for Failure {
    fn source(&self) -> Option<&(dyn Error + 'static)> {
        match self {
            Failure::Refused(refusal) => Some(refusal),
            Failure::Unreadable(fault) => Some(fault),
        }
    }
}

impl From<Refusal> for Failure {
    fn from(refusal: Refusal) -> Failure {
        Failure::Refused(refusal)
    }
}

impl From<NoAnswer> for Failure {
    fn from(fault: NoAnswer) -> Failure {
        Failure::Unreadable(fault)
    }
}

/// The deepest that a type is nested in any answer: 256 types of the schema within 512 records of a query.
pub(crate) const DEPTH: usize = 768;

impl Answer {
    /// Whether no query has a diagnostic, as the lamp tells it.
    pub fn is_clean(&self) -> bool {
        self.queries.iter().all(|query| query.diagnostics.is_empty())
    }

    /// Parses the lines of an answer.
    ///
    /// ```
    /// use sigla::{Answer, Ty};
    /// let answer = Answer::parse(b"07000000\n0900000000\n")?;
    /// assert_eq!(answer.queries[0].types, [Some(Ty::Integer)]);
    /// assert_eq!(answer.queries[0].visits, Some(0));
    /// # Ok::<(), sigla::NoAnswer>(())
    /// ```
    pub fn parse(lines: &[u8]) -> Result<Answer, NoAnswer> {
        let mut queries = vec![Typed::default()];
        let mut begun = false;
        for (i, line) in lines.split_inclusive(|&byte| byte == b'\n').enumerate() {
            let fault = |what| NoAnswer { line: i + 1, what };
            let digits = line.strip_suffix(b"\n").ok_or_else(|| fault("no LF"))?;
            let bytes = decoded(digits).ok_or_else(|| fault("not hexadecimal"))?;
            let mut rest = Reader { bytes: &bytes };
            let kind = rest.byte().ok_or_else(|| fault("empty"))?;
            if kind == 0x0b {
                let number = rest.half().ok_or_else(|| fault("no number"))?;
                if begun {
                    queries.push(Typed::default());
                }
                if usize::from(number) != queries.len() - 1 {
                    return Err(fault("another query's number"));
                }
            } else {
                let query = queries.last_mut().expect("there is one");
                query.add(kind, &mut rest).ok_or_else(|| fault("not a line of an answer"))?;
            }
            begun = true;
            if !rest.bytes.is_empty() {
                return Err(fault("too long"));
            }
        }
        Ok(Answer { queries })
    }
}

impl Typed {
    fn add(&mut self, kind: u8, rest: &mut Reader<'_>) -> Option<()> {
        match kind {
            0x07 => {
                if usize::from(rest.half()?) != self.types.len() {
                    return None;
                }
                self.types.push(rest.slot()?);
            }
            0x08 => {
                let span = rest.span()?;
                let code = rest.text()?;
                self.diagnostics.push(Diagnostic { span, code, message: None });
            }
            0x0a => {
                let text = rest.text()?;
                let last = self.diagnostics.last_mut()?;
                if last.message.is_some() {
                    return None;
                }
                last.message = Some(text);
            }
            0x0c => self.once.push(rest.span()?),
            0x09 if self.visits.is_none() => self.visits = Some(rest.full()?),
            _ => return None,
        }
        Some(())
    }
}

pub(crate) fn decoded(digits: &[u8]) -> Option<Vec<u8>> {
    let digit = |byte: u8| match byte {
        b'0'..=b'9' => Some(byte - b'0'),
        b'a'..=b'f' => Some(byte - b'a' + 10),
        _ => None,
    };
    let pairs = digits.chunks_exact(2);
    if !pairs.remainder().is_empty() {
        return None;
    }
    pairs.map(|pair| Some(digit(pair[0])? * 16 + digit(pair[1])?)).collect()
}

/// The bytes of a line still to be read.
pub(crate) struct Reader<'a> {
    pub(crate) bytes: &'a [u8],
}

impl<'a> Reader<'a> {
    pub(crate) fn take(&mut self, n: usize) -> Option<&'a [u8]> {
        let (first, rest) = self.bytes.split_at_checked(n)?;
        self.bytes = rest;
        Some(first)
    }

    pub(crate) fn byte(&mut self) -> Option<u8> {
        Some(self.take(1)?[0])
    }

    pub(crate) fn half(&mut self) -> Option<u16> {
        Some(u16::from_be_bytes(self.take(2)?.try_into().ok()?))
    }

    pub(crate) fn full(&mut self) -> Option<u32> {
        Some(u32::from_be_bytes(self.take(4)?.try_into().ok()?))
    }

    pub(crate) fn span(&mut self) -> Option<Span> {
        Some(Span { start: self.full()?, end: self.full()? })
    }

    /// The text to the line's end.
    pub(crate) fn text(&mut self) -> Option<String> {
        String::from_utf8(std::mem::take(&mut self.bytes).to_vec()).ok()
    }

    fn slot(&mut self) -> Option<Option<Ty>> {
        if self.bytes.first() == Some(&0xff) {
            self.byte()?;
            return Some(None);
        }
        Some(Some(self.ty(DEPTH)?))
    }

    fn ty(&mut self, depth: usize) -> Option<Ty> {
        let depth = depth.checked_sub(1)?;
        Some(match self.byte()? {
            0 => Ty::Integer,
            1 => Ty::String,
            2 => Ty::Bytes,
            3 => Ty::Fact(self.full()?),
            4 => {
                let n = self.half()?;
                let part = |_| Some(Field { name: self.half()?, ty: self.ty(depth)? });
                Ty::Record((0..n).map(part).collect::<Option<_>>()?)
            }
            5 => {
                let n = self.half()?;
                let part = |_| Some(Alternative { name: self.half()?, discriminant: self.full()?, ty: self.ty(depth)? });
                Ty::Union((0..n).map(part).collect::<Option<_>>()?)
            }
            6 => Ty::Open(self.half()?),
            7 => Ty::Error,
            _ => return None,
        })
    }
}
