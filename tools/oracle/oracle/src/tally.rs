//! Counts of what a run has seen: files by answer, code, message text, node shape and statement kind.

use std::collections::{BTreeMap, BTreeSet};
use std::time::{Duration, Instant};

use judge::{Answer, File, Ran, Shape, Stmt, Type};

#[derive(Default)]
pub struct Tally {
    pub files: u64,
    accepted: u64,
    refused: BTreeMap<u8, u64>,
    left_out: BTreeMap<&'static str, u64>,
    codes: BTreeMap<&'static str, u64>,
    texts: BTreeMap<&'static str, u64>,
    /// Files whose answer just fits and ends in a message and its visits.
    full: u64,
    shapes: [u64; Shape::NAMES.len()],
    stmts: [u64; Stmt::NAMES.len()],
    /// Files past the reading with a predicate above 65,535 in a type, in a node, and with one whose low half is
    /// the number of a predicate that the file has.
    above: [u64; 3],
    /// Files past the reading by their number of queries, from each of `QUERIES` on.
    queries: [u64; QUERIES.len()],
}

const QUERIES: [usize; 6] = [1, 2, 5, 30, 63, 64];

impl Tally {
    /// One file: `read` is what it describes, where it passed the reading.
    pub fn add(&mut self, ran: &Ran, read: Option<&File>) {
        self.files += 1;
        match &ran.answer {
            Answer::Lines(_) => self.accepted += 1,
            Answer::Refused(number) => *self.refused.entry(*number).or_default() += 1,
            Answer::LeftOut(why) => *self.left_out.entry(why).or_default() += 1,
        }
        self.full += u64::from(trial::full(&ran.answer));
        // A file counts once for each code, text, shape and statement that it has, however often.
        for code in ran.codes.iter().collect::<BTreeSet<_>>() {
            *self.codes.entry(code).or_default() += 1;
        }
        for text in ran.texts.iter().collect::<BTreeSet<_>>() {
            *self.texts.entry(text).or_default() += 1;
        }
        let Some(file) = read else {
            return;
        };
        let mut stmts: BTreeSet<u8> = BTreeSet::new();
        let mut shapes = BTreeSet::new();
        for tree in &file.trees {
            stmts.extend(tree.query.body.iter().map(Stmt::byte));
            for node in &tree.nodes {
                shapes.insert(node.shape.byte());
                if let Shape::Subquery(query) = &node.shape {
                    stmts.extend(query.body.iter().map(Stmt::byte));
                }
            }
        }
        let types = file.types.iter().filter_map(|ty| match ty {
            Type::Fact(number) => Some(*number),
            _ => None,
        });
        let in_types = types.filter(|number| *number > 65_535).count();
        let above: Vec<u32> = judge::references(file)
            .filter(|number| *number > 65_535)
            .collect();
        let alike = |number: &u32| usize::from(*number as u16) < file.predicates.len();
        self.above[0] += u64::from(in_types > 0);
        self.above[1] += u64::from(above.len() > in_types);
        self.above[2] += u64::from(above.iter().any(alike));
        let size = QUERIES.iter().rposition(|from| *from <= file.trees.len());
        self.queries[size.expect("a file past the reading has a query")] += 1;
        for shape in shapes {
            self.shapes[usize::from(shape)] += 1;
        }
        for stmt in stmts {
            self.stmts[usize::from(stmt)] += 1;
        }
    }

    pub fn left_out(&self) -> u64 {
        self.left_out.values().sum()
    }

    /// Prints all counts.
    pub fn print(&self) {
        let refused = self
            .refused
            .iter()
            .map(|(number, count)| (number.to_string(), *count));
        println!("files {}, accepted {}", self.files, self.accepted);
        print_counts("refused", refused);
        print_counts("left out", named(&self.left_out));
        print_counts("with a diagnostic", named(&self.codes));
        let texts = judge::TEXTS.iter();
        print_counts(
            "with a message",
            texts.map(|text| {
                let count = self.texts.get(text).copied();
                ((*text).to_owned(), count.unwrap_or(0))
            }),
        );
        println!(
            "  answers of 65,536 bytes that end in a message: {}",
            self.full
        );
        let shapes = Shape::NAMES.iter().zip(self.shapes);
        print_counts(
            "with a node",
            shapes.map(|(name, count)| ((*name).to_owned(), count)),
        );
        let [types, nodes, alike] = self.above;
        println!(
            "  with a predicate above 65,535: in a type {types}, in a node {nodes}, its low half one that exists {alike}"
        );
        let queries = QUERIES.iter().zip(self.queries);
        print_counts(
            "read, by the queries from",
            queries.map(|(from, count)| (from.to_string(), count)),
        );
        let stmts = Stmt::NAMES.iter().zip(self.stmts);
        print_counts(
            "with a statement",
            stmts.map(|(name, count)| ((*name).to_owned(), count)),
        );
    }
}

fn named(counts: &BTreeMap<&'static str, u64>) -> impl Iterator<Item = (String, u64)> {
    counts
        .iter()
        .map(|(name, count)| ((*name).to_owned(), *count))
}

fn print_counts(what: &str, counts: impl Iterator<Item = (String, u64)>) {
    let counts: Vec<String> = counts
        .map(|(name, count)| format!("{name} {count}"))
        .collect();
    println!("  {what}: {}", counts.join(", "));
}

/// A line on standard error now and then, so that a long run is seen to move.
pub struct Progress {
    count: u64,
    last: Instant,
    started: Instant,
}

impl Progress {
    pub fn new(count: u64) -> Self {
        Progress {
            count,
            last: Instant::now(),
            started: Instant::now(),
        }
    }

    pub fn at(&mut self, done: u64, mismatches: u64) {
        if self.last.elapsed() < Duration::from_secs(5) {
            return;
        }
        self.last = Instant::now();
        let seconds = self.started.elapsed().as_secs();
        eprintln!(
            "{done} of {} files, {mismatches} mismatches, {seconds} s",
            self.count
        );
    }
}
