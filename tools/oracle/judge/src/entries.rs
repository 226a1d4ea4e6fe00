//! The entries to `unify` from outside it (card 12), as the counted copy makes them: the two sides, the bindings right
//! before and what came of it.

use std::cell::RefCell;
use std::collections::{HashMap, HashSet};
use std::sync::Arc;

use fjord_schema::schema::Symbol;

use crate::diag::Diagnostics;
use crate::syntax::Ty;
use crate::visits::{self, Stop};
use crate::{Limits, TOO_LARGE, TOO_LONG, counted, levenshtein, marks, read, tree};

// ---- What the line of the counted copy calls

struct Logged {
    number: u64,
    got: Ty,
    expected: Ty,
    before: Vec<Option<Ty>>,
    /// Where it succeeded.
    after: Option<Vec<Option<Ty>>>,
}

struct Log {
    count: u64,
    inside: bool,
    chosen: HashSet<u64>,
    /// Of the first so many all are chosen.
    first: u64,
    kept: Vec<Logged>,
}

thread_local! {
    static LOG: RefCell<Option<Log>> = const { RefCell::new(None) };
}

/// Whether this entry is from outside and there is a log; then it is in it, and `ends` must follow.
pub(crate) fn begins(got: &Ty, expected: &Ty, subst: &[Option<Ty>]) -> bool {
    LOG.with_borrow_mut(|log| {
        let Some(log) = log.as_mut().filter(|log| !log.inside) else {
            return false;
        };
        log.inside = true;
        let number = log.count;
        log.count += 1;
        if number < log.first || log.chosen.contains(&number) {
            log.kept.push(Logged {
                number,
                got: got.clone(),
                expected: expected.clone(),
                before: subst.to_vec(),
                after: None,
            });
        }
        true
    })
}

pub(crate) fn ends(succeeded: bool, subst: &[Option<Ty>]) {
    LOG.with_borrow_mut(|log| {
        let log = log.as_mut().expect("it has begun");
        log.inside = false;
        if let Some(last) = log.kept.last_mut().filter(|last| last.number + 1 == log.count) {
            last.after = succeeded.then(|| subst.to_vec());
        }
    });
}

// ---- Types by the file's numbers

#[derive(Debug, Clone, Copy, PartialEq, Eq, Hash)]
pub enum Kind {
    Record,
    Union,
}

#[derive(Debug, Clone)]
pub enum Term {
    Int,
    String,
    Bytes,
    Error,
    Fact(u32),
    Unknown(u32),
    Node(Arc<Node>),
}

/// A record or a union. `words` is what it takes in a slice lent to the plain solver; `open` where an unknown stands in
/// it.
#[derive(Debug)]
pub struct Node {
    pub kind: Kind,
    pub parts: Vec<Part>,
    pub words: u64,
    pub open: bool,
}

/// A field by its name, an alternative by its discriminant and its name.
#[derive(Debug, Clone)]
pub struct Part {
    pub key: u32,
    pub label: u32,
    pub of: Term,
}

impl Term {
    pub fn node(kind: Kind, parts: Vec<Part>) -> Term {
        let head = head_words(kind);
        let words = parts.iter().fold(2_u64, |sum, part| sum.saturating_add(head + part.of.words()));
        let open = parts.iter().any(|part| part.of.open());
        Term::Node(Arc::new(Node { kind, parts, words, open }))
    }

    pub fn words(&self) -> u64 {
        match self {
            Term::Int | Term::String | Term::Bytes | Term::Error => 1,
            Term::Fact(_) | Term::Unknown(_) => 2,
            Term::Node(node) => node.words,
        }
    }

    pub fn open(&self) -> bool {
        match self {
            Term::Unknown(_) => true,
            Term::Node(node) => node.open,
            _ => false,
        }
    }
}

fn head_words(kind: Kind) -> u64 {
    match kind {
        Kind::Record => 2,
        Kind::Union => 4,
    }
}

/// The Rust's types with the file's numbers; what is shared there is shared here.
struct Turned<'a> {
    numbers: &'a HashMap<Symbol, u16>,
    /// By address of the shared fields or alternatives, which the log keeps.
    made: HashMap<usize, Term>,
}

impl Turned<'_> {
    fn term(&mut self, ty: &Ty) -> Term {
        match ty {
            Ty::Int => Term::Int,
            Ty::String => Term::String,
            Ty::Bytes => Term::Bytes,
            Ty::Error => Term::Error,
            Ty::Fact(predicate) => Term::Fact(predicate.0),
            Ty::Var(var) => Term::Unknown(var.index() as u32),
            Ty::Record(fields) => {
                let at = Arc::as_ptr(fields).cast::<u8>() as usize;
                if let Some(made) = self.made.get(&at).filter(|_| !fields.is_empty()) {
                    return made.clone();
                }
                let part = |(name, field): &(Symbol, Ty)| Part {
                    key: u32::from(self.numbers[name]),
                    label: 0,
                    of: self.term(field),
                };
                let made = Term::node(Kind::Record, fields.iter().map(part).collect());
                self.made.insert(at, made.clone());
                made
            }
            Ty::Union(alternatives) => {
                let at = Arc::as_ptr(alternatives).cast::<u8>() as usize;
                if let Some(made) = self.made.get(&at).filter(|_| !alternatives.is_empty()) {
                    return made.clone();
                }
                let part = |(name, disc, payload): &(Symbol, u32, Ty)| Part {
                    key: *disc,
                    label: u32::from(self.numbers[name]),
                    of: self.term(payload),
                };
                let made = Term::node(Kind::Union, alternatives.iter().map(part).collect());
                self.made.insert(at, made.clone());
                made
            }
        }
    }

    fn terms(&mut self, subst: &[Option<Ty>]) -> Vec<Option<Term>> {
        subst.iter().map(|bound| bound.as_ref().map(|ty| self.term(ty))).collect()
    }
}

/// What a type is with its bindings followed, found without writing it out.
struct Followed<'a> {
    subst: &'a [Option<Ty>],
    unknowns: Vec<Option<Seen>>,
    shared: HashMap<usize, Seen>,
}

#[derive(Clone, Copy)]
struct Seen {
    /// As the lent slice has it.
    words: u64,
    /// It reaches an Error or a record that names a field twice.
    shut_out: bool,
}

impl Seen {
    fn and(self, head: u64, part: Seen) -> Seen {
        Seen {
            words: self.words.saturating_add(head).saturating_add(part.words),
            shut_out: self.shut_out || part.shut_out,
        }
    }
}

impl Followed<'_> {
    fn see(&mut self, ty: &Ty) -> Seen {
        let of = |words, shut_out| Seen { words, shut_out };
        match ty {
            Ty::Int | Ty::String | Ty::Bytes => of(1, false),
            Ty::Error => of(1, true),
            Ty::Fact(_) => of(2, false),
            Ty::Var(var) => {
                let index = var.index();
                if let Some(seen) = self.unknowns[index] {
                    return seen;
                }
                let subst = self.subst;
                let seen = match &subst[index] {
                    Some(bound) => self.see(bound),
                    None => of(2, false),
                };
                self.unknowns[index] = Some(seen);
                seen
            }
            Ty::Record(fields) => {
                let at = Arc::as_ptr(fields).cast::<u8>() as usize;
                if let Some(seen) = self.shared.get(&at).filter(|_| !fields.is_empty()) {
                    return *seen;
                }
                let names: HashSet<Symbol> = fields.iter().map(|field| field.0).collect();
                let mut seen = of(2, names.len() < fields.len());
                for (_, field) in fields.iter() {
                    seen = seen.and(head_words(Kind::Record), self.see(field));
                }
                self.shared.insert(at, seen);
                seen
            }
            Ty::Union(alternatives) => {
                let at = Arc::as_ptr(alternatives).cast::<u8>() as usize;
                if let Some(seen) = self.shared.get(&at).filter(|_| !alternatives.is_empty()) {
                    return *seen;
                }
                let mut seen = of(2, false);
                for (_, _, payload) in alternatives.iter() {
                    seen = seen.and(head_words(Kind::Union), self.see(payload));
                }
                self.shared.insert(at, seen);
                seen
            }
        }
    }
}

// ---- The entries of a file

/// The sides and the bindings before and after, the latter where the Rust's `unify` succeeded.
#[derive(Debug)]
pub struct Terms {
    pub got: Term,
    pub expected: Term,
    pub before: Vec<Option<Term>>,
    pub after: Option<Vec<Option<Term>>>,
}

#[derive(Debug)]
pub struct Entry {
    pub number: u64,
    /// A side reaches an Error or a record that names a field twice.
    pub shut_out: bool,
    pub succeeded: bool,
    /// The words that the plain solver starts with.
    pub start: u64,
    /// None where `start` is more than was asked for.
    pub terms: Option<Terms>,
}

#[derive(Debug)]
pub enum Entries {
    /// How many there are over all queries, the visits made, and the entries that were asked for.
    Made {
        count: u64,
        visits: u64,
        kept: Vec<Entry>,
    },
    /// The refusal's number, 1 to 11 or 13.
    Refused(u8),
    /// The Rust can't hold what the file describes; the words say why.
    LeftOut(&'static str),
}

/// The first `first` entries of a file and the chosen ones, with their types where they start with at most `words`
/// words. Needs the large stack.
pub fn entries(file: &[u8], limits: &Limits, first: u64, chosen: &HashSet<u64>, words: u64) -> Entries {
    let file = match read(file, limits) {
        Ok(file) => file,
        Err(number) => return Entries::Refused(number),
    };
    let base = tree::base(&file);
    levenshtein::set(file.max_distance, file.max_term);
    visits::begin();
    LOG.set(Some(Log {
        count: 0,
        inside: false,
        chosen: chosen.clone(),
        first,
        kept: vec![],
    }));
    let mut visits = 0;
    for tree in &file.trees {
        let tree = tree::build(tree, &base);
        let mut diagnostics = Diagnostics::new();
        marks::begin();
        let (left, made) = visits::counted(limits.visits, || {
            counted::probe::walk(&tree.ast, &base.schema, &base.interner, &mut diagnostics)
        });
        visits += made;
        let stopped = match left {
            Ok(_) => continue,
            Err(Stop::Visits) => Entries::Refused(11),
            Err(Stop::Size) => Entries::LeftOut(TOO_LARGE),
            Err(Stop::Text) => Entries::LeftOut(TOO_LONG),
        };
        LOG.set(None);
        return stopped;
    }
    let log = LOG.take().expect("set above");
    let mut turned = Turned {
        numbers: &base.numbers,
        made: HashMap::new(),
    };
    let kept = log.kept.iter().map(|logged| entry(logged, &mut turned, words)).collect();
    Entries::Made {
        count: log.count,
        visits,
        kept,
    }
}

fn entry(logged: &Logged, turned: &mut Turned, words: u64) -> Entry {
    let mut followed = Followed {
        subst: &logged.before,
        unknowns: vec![None; logged.before.len()],
        shared: HashMap::new(),
    };
    let (got, expected) = (followed.see(&logged.got), followed.see(&logged.expected));
    let mut start = got.words.saturating_add(expected.words);
    for bound in logged.before.iter().flatten() {
        start = start.saturating_add(2).saturating_add(followed.see(bound).words);
    }
    let start = start.saturating_mul(2);
    let terms = (start <= words).then(|| Terms {
        got: turned.term(&logged.got),
        expected: turned.term(&logged.expected),
        before: turned.terms(&logged.before),
        after: logged.after.as_ref().map(|after| turned.terms(after)),
    });
    Entry {
        number: logged.number,
        shut_out: got.shut_out || expected.shut_out,
        succeeded: logged.after.is_some(),
        start,
        terms,
    }
}
