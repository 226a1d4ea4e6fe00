//! What a diagnostic says, and the text of it: written when it is reported, with the bindings of
//! that moment, and no further than an answer can hold.

use crate::checker::{Code, State};
use crate::mutation::Wrong;
use crate::types::{Part, Ty};

/// What a diagnostic says, in numbers and types.
#[derive(Clone, Copy, Debug)]
pub enum Message {
    WildcardHead,
    BoundLiteral,
    DeniedLiteral,
    MatchedPatterns,
    DeniedPattern,
    Distance(u8),
    /// The term's name.
    Term(u16),
    Unresolved,
    Shadowed,
    NoValue,
    NoAlternative(u16),
    NoField(u16),
    /// How many alternatives are named.
    Arity(usize),
    NotAUnion(Ty),
    NotAFact(Ty),
    NoFields(Ty),
    NoOrder(Ty),
    Mismatch {
        expected: Ty,
        found: Ty,
    },
    /// Two unions by their cells.
    Unions {
        expected: usize,
        found: usize,
        at: Difference,
    },
    Infinite,
    /// Only a wrong checker reports so.
    Mistaken(Code),
}

/// Where two unions differ: names and the discriminant.
#[derive(Clone, Copy, Debug)]
pub enum Difference {
    Absent(u16, u32),
    Renamed {
        expected: u16,
        found: u16,
        disc: u32,
    },
    Payload(u16, u32),
}

impl Message {
    pub fn code(self) -> Code {
        match self {
            Message::WildcardHead => Code::WildcardInHead,
            Message::BoundLiteral | Message::DeniedLiteral => Code::BindLhs,
            Message::MatchedPatterns | Message::DeniedPattern => Code::BindUnification,
            Message::Distance(_) => Code::FuzzyDistance,
            Message::Term(_) => Code::FuzzyTerm,
            Message::Unresolved => Code::UnresolvedAccess,
            Message::Shadowed => Code::ValueShadowed,
            Message::NoValue => Code::NoValue,
            Message::NoAlternative(_) => Code::UnknownAlternative,
            Message::NoField(_) => Code::UnknownField,
            Message::Arity(_) => Code::UnionArity,
            Message::NotAUnion(_) => Code::NotAUnion,
            Message::NotAFact(_)
            | Message::NoFields(_)
            | Message::NoOrder(_)
            | Message::Mismatch { .. }
            | Message::Unions { .. } => Code::TypeMismatch,
            Message::Infinite => Code::InfiniteType,
            Message::Mistaken(code) => code,
        }
    }
}

/// The text of a message as the bindings are now, cut off past `most` bytes.
pub fn text(state: &State, message: Message, most: usize) -> Vec<u8> {
    let mut text = Text {
        state,
        out: Vec::new(),
        most,
        follows: Follows::Nothing,
        depth: 0,
    };
    // A text that is cut off is too long for the answer already.
    let _ = text.message(message);
    if state.wrong.on(Wrong::MessageCut) {
        text.out.truncate(511);
    }
    text.out
}

/// Which bindings a type is shown with.
#[derive(Clone, Copy, PartialEq)]
enum Follows {
    Nothing,
    Outermost,
    All,
}

struct Text<'a> {
    state: &'a State<'a>,
    out: Vec<u8>,
    most: usize,
    follows: Follows,
    depth: usize,
}

/// Nothing where the text is full.
type Written = Option<()>;

impl Text<'_> {
    fn on(&self, wrong: Wrong) -> bool {
        self.state.wrong.on(wrong)
    }

    fn bytes(&mut self, bytes: &[u8]) -> Written {
        self.out.extend_from_slice(bytes);
        (self.out.len() <= self.most).then_some(())
    }

    fn say(&mut self, words: &str) -> Written {
        self.bytes(words.as_bytes())
    }

    fn name(&mut self, name: u16) -> Written {
        let state = self.state;
        match state.tree.texts.get(name as usize) {
            Some(text) if self.on(Wrong::NamesEscaped) => {
                let text = String::from_utf8_lossy(text).escape_debug().to_string();
                self.say(&text)
            }
            Some(text) => self.bytes(text),
            None => self.say("?"),
        }
    }

    fn quoted(&mut self, name: u16) -> Written {
        self.say("`")?;
        self.name(name)?;
        self.say("`")
    }

    fn disc(&mut self, disc: u32) -> Written {
        let digits = match () {
            _ if self.on(Wrong::SignedShown) => (disc as i32).to_string(),
            _ => disc.to_string(),
        };
        self.say(&digits)
    }

    fn message(&mut self, message: Message) -> Written {
        match message {
            Message::WildcardHead => self.say("a wildcard head projects nothing"),
            Message::DeniedLiteral if !self.on(Wrong::DeniedAsBound) => {
                self.say("nothing here can be denied; put the variable on the left")
            }
            Message::BoundLiteral | Message::DeniedLiteral => {
                self.say("a literal cannot be bound to; put the variable on the left")
            }
            Message::DeniedPattern if !self.on(Wrong::DeniedAsMatched) => {
                self.say("denying anything but a variable is not implemented yet")
            }
            Message::MatchedPatterns | Message::DeniedPattern => {
                self.say("matching two patterns against each other is not implemented yet")
            }
            Message::Distance(distance) => {
                let most = match () {
                    _ if self.on(Wrong::UsualLimits) => 2,
                    _ => self.state.tree.most_distance,
                };
                self.say(&format!(
                    "an edit distance of {distance} is outside 1..={most}"
                ))
            }
            Message::Term(name) => {
                let tree = self.state.tree;
                let most = match () {
                    _ if self.on(Wrong::UsualLimits) => 32,
                    _ => tree.most_characters,
                };
                let length = match () {
                    _ if self.on(Wrong::TermInBytes) => tree.texts[name as usize].len(),
                    _ => tree.characters[name as usize],
                };
                self.say(&format!(
                    "a fuzzy term of {length} characters is longer than the {most} a match is built for"
                ))
            }
            Message::Unresolved => self
                .say("the type of this value is not known here, so its field cannot be resolved"),
            Message::Shadowed => {
                self.say("this predicate has a key field called `value`, so `.value` is ambiguous")
            }
            Message::NoValue => self.say("this predicate has no value"),
            Message::NoAlternative(name) => {
                self.quoted(name)?;
                self.say(" is not an alternative of this union")
            }
            Message::NoField(name) => {
                self.quoted(name)?;
                self.say(" is not a field here")
            }
            Message::Arity(count) => self.say(&format!(
                "a union value is one alternative, and this names {count}"
            )),
            Message::NotAUnion(ty) => {
                self.say("only a union has alternatives; this is ")?;
                self.ty(ty)
            }
            Message::NotAFact(ty) => {
                self.say("only a fact has a value; this is ")?;
                self.ty(ty)
            }
            Message::NoFields(ty) => {
                self.ty(ty)?;
                self.say(" has no fields")
            }
            Message::NoOrder(ty) => {
                self.follows = match () {
                    _ if self.on(Wrong::NoOrderUnresolved) => Follows::Nothing,
                    _ if self.on(Wrong::NoOrderOutermost) => Follows::Outermost,
                    _ => Follows::All,
                };
                self.ty(ty)?;
                self.say(" has no order ")?;
                match () {
                    _ if self.on(Wrong::DashIsHyphen) => self.say("-")?,
                    _ if self.on(Wrong::DashIsByte) => self.bytes(&[0x14])?,
                    _ => self.bytes(&[0xe2, 0x80, 0x94])?,
                }
                self.say(" it holds a reference, and a reference compares by which fact was written first")
            }
            Message::Mismatch { expected, found } => self.sides(expected, found),
            Message::Unions {
                expected,
                found,
                at,
            } => {
                self.sides(Ty::Union(expected), Ty::Union(found))?;
                if self.on(Wrong::DifferenceDropped) {
                    return Some(());
                }
                self.say(": ")?;
                self.difference(at)
            }
            Message::Infinite => self.say("this pattern would have to contain itself"),
            Message::Mistaken(_) => Some(()),
        }
    }

    fn sides(&mut self, expected: Ty, found: Ty) -> Written {
        if self.on(Wrong::MismatchResolved) {
            self.follows = Follows::All;
        }
        let (expected, found) = match () {
            _ if self.on(Wrong::SidesExchanged) => (found, expected),
            _ => (expected, found),
        };
        self.say("expected ")?;
        self.ty(expected)?;
        self.say(", found ")?;
        self.ty(found)
    }

    fn difference(&mut self, at: Difference) -> Written {
        match at {
            Difference::Absent(name, disc) => {
                self.say("only one of them declares ")?;
                self.quoted(name)?;
                self.say(" = ")?;
                self.disc(disc)
            }
            Difference::Renamed {
                expected,
                found,
                disc,
            } => {
                let (expected, found) = match () {
                    _ if self.on(Wrong::RenamedExchanged) => (found, expected),
                    _ => (expected, found),
                };
                self.say("discriminant ")?;
                self.disc(disc)?;
                self.say(" is ")?;
                self.quoted(expected)?;
                self.say(", not ")?;
                self.quoted(found)
            }
            Difference::Payload(name, disc) => {
                self.say("alternative ")?;
                self.quoted(name)?;
                self.say(" = ")?;
                self.disc(disc)?;
                self.say(" carries a different payload")
            }
        }
    }

    fn ty(&mut self, ty: Ty) -> Written {
        // Only bindings without an occurs check go deeper than a file can.
        if self.depth > 2_000 {
            return None;
        }
        self.depth += 1;
        self.shape(self.seen(ty))?;
        self.depth -= 1;
        Some(())
    }

    /// A type with the bindings followed that are to be.
    fn seen(&self, ty: Ty) -> Ty {
        let follow = match self.follows {
            Follows::Nothing => false,
            Follows::Outermost => self.depth == 1,
            Follows::All => true,
        };
        let mut at = ty;
        for _ in 0..=self.state.subst.len() {
            match at {
                Ty::Var(var) if follow => match self.state.subst.get(var) {
                    Some(Some(next)) => at = *next,
                    _ => return at,
                },
                _ => return at,
            }
        }
        at
    }

    fn shape(&mut self, ty: Ty) -> Written {
        match ty {
            Ty::Int => self.say("an integer"),
            Ty::String => self.say("a string"),
            Ty::Bytes => self.say("bytes"),
            Ty::Error if !self.on(Wrong::ErrorShownUnknown) => self.say("(already reported)"),
            Ty::Var(var) if self.on(Wrong::UnknownsNumbered) => self.say(&format!("?{var}")),
            Ty::Error | Ty::Var(_) => self.say("an unknown type"),
            Ty::Fact(predicate) => {
                let row = self.state.tree.predicates.get(predicate as usize);
                match row {
                    Some(_) if self.on(Wrong::FactsUnnamed) => self.say("a fact"),
                    Some(_) if self.on(Wrong::FactsByNumber) => self.quoted(predicate as u16),
                    Some(row) if self.on(Wrong::FactsUnquoted) => self.name(row.name),
                    Some(row) => self.quoted(row.name),
                    None if self.on(Wrong::AbsentFactMark) => self.say("?"),
                    None => self.say("a fact"),
                }
            }
            Ty::Record(cell) => {
                self.say("{")?;
                for place in 0..self.state.cells.count(cell) {
                    let part = self.state.cells.part(cell, place);
                    if place > 0 {
                        self.say(", ")?;
                    }
                    self.name(part.name)?;
                    self.say(" = ")?;
                    self.ty(part.ty)?;
                }
                self.say("}")
            }
            Ty::Union(cell) => {
                let mut parts: Vec<Part> = self.state.cells.parts(cell).to_vec();
                if self.on(Wrong::UnionsShownSorted) {
                    parts.sort_by_key(|part| part.disc);
                }
                self.say("{")?;
                for (place, part) in parts.iter().enumerate() {
                    match () {
                        _ if place == 0 => {}
                        _ if self.on(Wrong::CommaBetween) => self.say(", ")?,
                        _ => self.say(" | ")?,
                    }
                    self.name(part.name)?;
                    self.say(" : ")?;
                    self.ty(part.ty)?;
                    self.say(" = ")?;
                    self.disc(part.disc)?;
                }
                self.say("}")
            }
        }
    }
}
