//! The plain solver's run as docs/FORMAT.md defines it, over the entry that the Rust logged, with mistakes to switch
//! on.

use judge::entries::{Kind, Node, Part, Term, Terms};

/// Mistakes in the run.
#[derive(Debug, Clone, Copy, PartialEq)]
pub enum Slip {
    NoOccursCheck,
    PairsNotReplaced,
    BindingsNotReplaced,
    ByPlace,
    UnlikeLeavesDropped,
    PredicateIgnored,
    NameIgnored,
    DiscriminantIgnored,
    ArityIgnored,
    NoEarlierBindings,
    EarlierUnresolved,
    NewBindingForgotten,
    OldestFirst,
}

pub const SLIPS: [Slip; 13] = [
    Slip::NoOccursCheck,
    Slip::PairsNotReplaced,
    Slip::BindingsNotReplaced,
    Slip::ByPlace,
    Slip::UnlikeLeavesDropped,
    Slip::PredicateIgnored,
    Slip::NameIgnored,
    Slip::DiscriminantIgnored,
    Slip::ArityIgnored,
    Slip::NoEarlierBindings,
    Slip::EarlierUnresolved,
    Slip::NewBindingForgotten,
    Slip::OldestFirst,
];

/// An unknown and what it is bound to.
pub type Binding = (u32, Term);

#[derive(Debug)]
pub enum Came {
    /// The bindings, the newest first.
    Success(Vec<Binding>),
    Failure,
    /// A stage needs more words than the most.
    Full,
}

/// What the run came to, and the most words that a stage needed.
pub struct Run {
    pub came: Came,
    pub words: u64,
}

/// Lists end with what is taken first: the next pair, the newest binding.
struct Stage {
    pairs: Vec<(Term, Term)>,
    bindings: Vec<Binding>,
}

impl Stage {
    fn words(&self) -> u64 {
        let pairs = self.pairs.iter().map(|(left, right)| left.words().saturating_add(right.words()));
        let bindings = self.bindings.iter().map(|(_, to)| to.words().saturating_add(2));
        let sum = pairs.chain(bindings).fold(0, u64::saturating_add);
        sum.saturating_mul(2)
    }
}

/// Every bound unknown followed, each once.
struct Resolved<'a> {
    before: &'a [Option<Term>],
    done: Vec<Option<Term>>,
}

impl Resolved<'_> {
    fn term(&mut self, term: &Term) -> Term {
        match term {
            Term::Unknown(x) => self.unknown(*x),
            Term::Node(node) if node.open => rebuilt(node, |part| self.term(part)),
            other => other.clone(),
        }
    }

    fn unknown(&mut self, x: u32) -> Term {
        let at = x as usize;
        if let Some(done) = &self.done[at] {
            return done.clone();
        }
        let before = self.before;
        let done = match &before[at] {
            Some(bound) => self.term(bound),
            None => Term::Unknown(x),
        };
        self.done[at] = Some(done.clone());
        done
    }
}

fn rebuilt(node: &Node, mut part: impl FnMut(&Term) -> Term) -> Term {
    let parts = node.parts.iter().map(|old| Part {
        of: part(&old.of),
        ..*old
    });
    Term::node(node.kind, parts.collect())
}

fn occurs(x: u32, term: &Term) -> bool {
    match term {
        Term::Unknown(y) => x == *y,
        Term::Node(node) => node.open && node.parts.iter().any(|part| occurs(x, &part.of)),
        _ => false,
    }
}

/// `to` in the place of x; none where x does not stand there.
fn replaced(x: u32, to: &Term, term: &Term) -> Option<Term> {
    match term {
        Term::Unknown(y) => (*y == x).then(|| to.clone()),
        Term::Node(node) if node.open => {
            let made: Vec<Option<Term>> = node.parts.iter().map(|part| replaced(x, to, &part.of)).collect();
            if made.iter().all(Option::is_none) {
                return None;
            }
            let parts = node.parts.iter().zip(made).map(|(old, made)| Part {
                of: made.unwrap_or_else(|| old.of.clone()),
                ..*old
            });
            Some(Term::node(node.kind, parts.collect()))
        }
        _ => None,
    }
}

fn replace(x: u32, to: &Term, term: &mut Term) {
    if let Some(made) = replaced(x, to, term) {
        *term = made;
    }
}

enum Step {
    Drops,
    Fails,
    Splits(Vec<(Term, Term)>),
    Binds(u32, Term),
}

fn bind(x: u32, to: Term, slip: Option<Slip>) -> Step {
    if occurs(x, &to) && slip != Some(Slip::NoOccursCheck) {
        Step::Fails
    } else {
        Step::Binds(x, to)
    }
}

fn leaves(equal: bool, slip: Option<Slip>) -> Step {
    if equal || slip == Some(Slip::UnlikeLeavesDropped) {
        Step::Drops
    } else {
        Step::Fails
    }
}

fn apart(left: &Node, right: &Node, slip: Option<Slip>) -> Step {
    let union = left.kind == Kind::Union;
    let fewer = left.parts.len() < right.parts.len();
    let unlike = left.parts.len() != right.parts.len() && !(slip == Some(Slip::ArityIgnored) && fewer);
    if left.kind != right.kind || unlike {
        return Step::Fails;
    }
    let mut pairs = vec![];
    for (place, part) in left.parts.iter().enumerate() {
        let other = match slip {
            Some(Slip::ByPlace) => right.parts.get(place),
            Some(Slip::DiscriminantIgnored) if union => right.parts.iter().find(|other| other.label == part.label),
            _ => right.parts.iter().find(|other| other.key == part.key),
        };
        let Some(other) = other else {
            return Step::Fails;
        };
        if union && other.label != part.label && slip != Some(Slip::NameIgnored) {
            return Step::Fails;
        }
        pairs.push((part.of.clone(), other.of.clone()));
    }
    Step::Splits(pairs)
}

fn step(left: Term, right: Term, slip: Option<Slip>) -> Step {
    match (left, right) {
        (Term::Unknown(x), Term::Unknown(y)) if x == y => Step::Drops,
        (Term::Unknown(x), right) => bind(x, right, slip),
        (left, Term::Unknown(y)) => bind(y, left, slip),
        (Term::Int, Term::Int) | (Term::String, Term::String) => Step::Drops,
        (Term::Bytes, Term::Bytes) | (Term::Error, Term::Error) => Step::Drops,
        (Term::Fact(p), Term::Fact(q)) => leaves(p == q || slip == Some(Slip::PredicateIgnored), slip),
        (Term::Node(left), Term::Node(right)) => apart(&left, &right, slip),
        (Term::Node(_), _) | (_, Term::Node(_)) => Step::Fails,
        _ => leaves(false, slip),
    }
}

/// A run of the right solver ends; a wrong one is stopped here.
const MOST_STEPS: usize = 1 << 20;

/// The run on an entry, with at most so many words.
pub fn run(terms: &Terms, most: u64, slip: Option<Slip>) -> Run {
    let mut resolved = Resolved {
        before: &terms.before,
        done: vec![None; terms.before.len()],
    };
    let mut side = |side: &Term| match slip {
        Some(Slip::EarlierUnresolved) => side.clone(),
        _ => resolved.term(side),
    };
    let pairs = vec![(side(&terms.got), side(&terms.expected))];
    let earlier = terms.before.iter().enumerate().filter(|(_, bound)| bound.is_some());
    let mut bindings: Vec<Binding> = earlier
        .map(|(x, _)| (x as u32, resolved.unknown(x as u32)))
        .collect();
    bindings.reverse();
    if slip == Some(Slip::NoEarlierBindings) {
        bindings.clear();
    }
    let mut stage = Stage { pairs, bindings };
    let mut words = 0;
    for _ in 0..MOST_STEPS {
        words = words.max(stage.words());
        if words > most {
            break;
        }
        let Some((left, right)) = stage.pairs.pop() else {
            if slip != Some(Slip::OldestFirst) {
                stage.bindings.reverse();
            }
            let came = Came::Success(stage.bindings);
            return Run { came, words };
        };
        match step(left, right, slip) {
            Step::Drops => {}
            Step::Fails => {
                let came = Came::Failure;
                return Run { came, words };
            }
            Step::Splits(parts) => stage.pairs.extend(parts.into_iter().rev()),
            Step::Binds(x, to) => {
                if slip != Some(Slip::PairsNotReplaced) {
                    for (left, right) in &mut stage.pairs {
                        replace(x, &to, left);
                        replace(x, &to, right);
                    }
                }
                if slip != Some(Slip::BindingsNotReplaced) {
                    for (_, bound) in &mut stage.bindings {
                        replace(x, &to, bound);
                    }
                }
                if slip != Some(Slip::NewBindingForgotten) {
                    stage.bindings.push((x, to));
                }
            }
        }
    }
    Run { came: Came::Full, words }
}

// ---- Words

fn spell_term(term: &Term, words: &mut Vec<u32>) {
    match term {
        Term::Int => words.push(1),
        Term::String => words.push(2),
        Term::Bytes => words.push(3),
        Term::Fact(predicate) => words.extend([4, *predicate]),
        Term::Unknown(x) => words.extend([7, *x]),
        Term::Error => words.push(8),
        Term::Node(node) => {
            let count = node.parts.len() as u32;
            words.extend([if node.kind == Kind::Record { 5 } else { 6 }, count]);
            for part in &node.parts {
                if node.kind == Kind::Union {
                    words.extend([10, part.label]);
                }
                words.extend([9, part.key]);
                spell_term(&part.of, words);
            }
        }
    }
}

/// The bindings as the lent slice has them.
pub fn spelled(bindings: &[Binding]) -> Vec<u32> {
    let mut words = vec![];
    for (x, to) in bindings {
        words.extend([11, *x]);
        spell_term(to, &mut words);
    }
    words
}

struct Reader<'a>(&'a [u32]);

impl Reader<'_> {
    fn word(&mut self) -> Option<u32> {
        let (first, rest) = self.0.split_first()?;
        self.0 = rest;
        Some(*first)
    }

    fn tagged(&mut self, tag: u32) -> Option<u32> {
        (self.word()? == tag).then_some(())?;
        self.word()
    }

    fn term(&mut self) -> Option<Term> {
        Some(match self.word()? {
            1 => Term::Int,
            2 => Term::String,
            3 => Term::Bytes,
            4 => Term::Fact(self.word()?),
            7 => Term::Unknown(self.word()?),
            8 => Term::Error,
            tag @ (5 | 6) => {
                let count = self.word()?;
                let mut parts = vec![];
                for _ in 0..count {
                    let label = if tag == 6 { self.tagged(10)? } else { 0 };
                    let key = self.tagged(9)?;
                    let of = self.term()?;
                    parts.push(Part { key, label, of });
                }
                Term::node(if tag == 5 { Kind::Record } else { Kind::Union }, parts)
            }
            _ => return None,
        })
    }
}

/// The bindings that stand in a lent slice, and then zeros; none where it holds anything else.
pub fn unspelled(lent: &[u32]) -> Option<Vec<Binding>> {
    let mut reader = Reader(lent);
    let mut bindings = vec![];
    while reader.0.first() == Some(&11) {
        let x = reader.tagged(11)?;
        bindings.push((x, reader.term()?));
    }
    reader.0.iter().all(|word| *word == 0).then_some(bindings)
}

fn print_term(term: &Term, text: &mut String) {
    match term {
        Term::Int => text.push_str(" Int"),
        Term::String => text.push_str(" String"),
        Term::Bytes => text.push_str(" Bytes"),
        Term::Error => text.push_str(" Error"),
        Term::Fact(predicate) => text.push_str(&format!(" fact {predicate}")),
        Term::Unknown(x) => text.push_str(&format!(" ?{x}")),
        Term::Node(node) => {
            let count = node.parts.len();
            let union = node.kind == Kind::Union;
            text.push_str(&format!(" {} {count}", if union { "union" } else { "record" }));
            for part in &node.parts {
                if union {
                    text.push_str(&format!(" |{}", part.label));
                }
                text.push_str(&format!(" .{}", part.key));
                print_term(&part.of, text);
            }
        }
    }
}

/// The lines that the program prints after 0e01.
pub fn printed(bindings: &[Binding]) -> String {
    let mut text = String::new();
    for (x, to) in bindings {
        text.push_str(&format!("?{x} ="));
        print_term(to, &mut text);
        text.push('\n');
    }
    text
}
