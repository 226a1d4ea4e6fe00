//! `oracle compare inspect`: card 12's plain solver beside the Rust's own entries to `unify`.

mod assign;
pub mod run;

use std::collections::{BTreeMap, HashSet};

use files::Rng;
use judge::Limits;
use judge::entries::{Entries, Entry, Term, entries};

use crate::Done;
use crate::compare;
use crate::corpus::Corpus;
use crate::mismatch::Mismatches;
use crate::options::Options;
use crate::port;
use crate::tally::Progress;
use assign::Compared;
use run::{Binding, Came, Run, Slip, run, spelled, unspelled};

/// The most words that are lent.
const MOST: u64 = 262_144;

/// A file with at most so many entries is asked about each, unless its visits make that too long.
const EVERY: u64 = 100_000;

/// The most visits of all the port's runs of one file, but for a few runs.
const MOST_VISITS: u64 = 400_000_000;

/// The words that the program lends.
const PROGRAM: u64 = 65_536;

// ---- What is expected

/// An entry, the definition's run there and the Rust's bindings after it.
struct Judged {
    entry: Entry,
    run: Option<Run>,
    after: Vec<Binding>,
}

impl Judged {
    fn new(entry: Entry) -> Judged {
        let terms = entry.terms.as_ref().filter(|_| !entry.shut_out);
        let run = terms.map(|terms| run(terms, MOST, None));
        let after = terms.and_then(|terms| terms.after.as_ref());
        let after = after.map(|after| bindings(after)).unwrap_or_default();
        Judged { entry, run, after }
    }

    /// The words that no stage passes; more than `MOST` where that is all that is known.
    fn words(&self) -> u64 {
        self.run.as_ref().map_or(self.entry.start, |run| run.words)
    }

    /// What is told with so many words lent: by the Rust, but for the words.
    fn told(&self, lent: u64) -> Told {
        if self.entry.shut_out {
            Told::ShutOut
        } else if lent < self.words() {
            Told::TooFew
        } else if self.entry.succeeded {
            Told::Success
        } else {
            Told::Failure
        }
    }

    /// Whether the definition's run comes to what the Rust came to.
    fn defined(&self) -> bool {
        match self.run.as_ref().map(|run| &run.came) {
            None | Some(Came::Full) => true,
            Some(Came::Success(_)) => self.entry.succeeded,
            Some(Came::Failure) => !self.entry.succeeded,
        }
    }
}

fn bindings(subst: &[Option<Term>]) -> Vec<Binding> {
    let all = subst.iter().enumerate();
    all.filter_map(|(x, bound)| Some((x as u32, bound.clone()?))).collect()
}

#[derive(Debug, Clone, Copy, PartialEq)]
enum Told {
    Success,
    Failure,
    ShutOut,
    Fewer,
    TooFew,
    Refused(u8),
}

impl Told {
    /// The call's number and what it tells.
    fn numbers(self) -> (u8, u32) {
        match self {
            Told::Success => (0, 1),
            Told::Failure => (0, 0),
            Told::ShutOut => (0, 2),
            Told::Fewer => (0, 3),
            Told::TooFew => (18, 0),
            Told::Refused(number) => (number, 0),
        }
    }

    fn line(self) -> String {
        match self.numbers() {
            (0, told) => format!("0e{told:02x}\n"),
            (number, _) => format!("0f{number:02x}\n"),
        }
    }
}

// ---- What is found

struct Found {
    number: u8,
    told: u32,
    work: Vec<u32>,
    lent: Vec<u32>,
}

/// What is asked: the library, or the definition's run with a mistake or none.
#[derive(Clone, Copy)]
pub enum Asked {
    Library,
    Model(Option<Wrong>),
}

/// Mistakes around the run, and in it.
#[derive(Debug, Clone, Copy, PartialEq)]
pub enum Wrong {
    Run(Slip),
    NextEntry,
    FewerAtTheLast,
    NotRefused,
    ErrorAdmitted,
    ShutOutByBindings,
    TooFewEarly,
    TooFewLate,
    TooFewBeforeShutOut,
    LentLeft,
    WorkLeft,
}

const AROUND: [Wrong; 10] = [
    Wrong::NextEntry,
    Wrong::FewerAtTheLast,
    Wrong::NotRefused,
    Wrong::ErrorAdmitted,
    Wrong::ShutOutByBindings,
    Wrong::TooFewEarly,
    Wrong::TooFewLate,
    Wrong::TooFewBeforeShutOut,
    Wrong::LentLeft,
    Wrong::WorkLeft,
];

/// All of them.
pub fn wrongs() -> impl Iterator<Item = Wrong> {
    run::SLIPS.into_iter().map(Wrong::Run).chain(AROUND)
}

fn asked_library(file: &[u8], n: u32, words: usize, lent: u64) -> Found {
    let mut work = vec![u32::MAX; words];
    let mut lent = vec![u32::MAX; lent as usize];
    let (number, told) = linked::inspect::inspect(file, n, &mut work, &mut lent);
    Found {
        number,
        told,
        work,
        lent,
    }
}

fn error_in(term: &Term) -> bool {
    match term {
        Term::Error => true,
        Term::Node(node) => node.parts.iter().any(|part| error_in(&part.of)),
        _ => false,
    }
}

/// By the definition, with a mistake.
fn asked_model(log: &Log, n: u64, words: usize, lent: u64, wrong: Option<Wrong>) -> Found {
    let is = |other: Wrong| wrong == Some(other);
    let (told, mut left) = match log {
        Log::Refused(_) if is(Wrong::NotRefused) => (Told::Fewer, vec![]),
        Log::Refused(number) => (Told::Refused(*number), vec![]),
        Log::Made { count, judged, .. } => {
            let at = if is(Wrong::NextEntry) { n + 1 } else { n };
            let fewer = at >= count - u64::from(is(Wrong::FewerAtTheLast) && *count > 0);
            match judged.iter().find(|judged| judged.entry.number == at) {
                _ if fewer => (Told::Fewer, vec![]),
                None => (Told::Fewer, vec![]),
                Some(judged) => solved(judged, lent, wrong),
            }
        }
    };
    left.resize(lent as usize, 0);
    if is(Wrong::LentLeft) && told != Told::Success && !left.is_empty() {
        left[0] = u32::MAX;
    }
    let mut work = vec![0; words];
    if is(Wrong::WorkLeft) && told == Told::Success {
        work[0] = 1;
    }
    let (number, told) = told.numbers();
    Found {
        number,
        told,
        work,
        lent: left,
    }
}

fn solved(judged: &Judged, lent: u64, wrong: Option<Wrong>) -> (Told, Vec<u32>) {
    let is = |other: Wrong| wrong == Some(other);
    let entry = &judged.entry;
    let room = match wrong {
        Some(Wrong::TooFewEarly) => lent.saturating_sub(1),
        Some(Wrong::TooFewLate) => lent + 2,
        _ => lent,
    };
    if is(Wrong::TooFewBeforeShutOut) && entry.start > lent {
        return (Told::TooFew, vec![]);
    }
    let Some(terms) = &entry.terms else {
        let told = if entry.shut_out { Told::ShutOut } else { Told::TooFew };
        return (told, vec![]);
    };
    let by_bindings = is(Wrong::ShutOutByBindings) && terms.before.iter().flatten().any(error_in);
    if by_bindings || entry.shut_out && !is(Wrong::ErrorAdmitted) {
        return (Told::ShutOut, vec![]);
    }
    let slip = match wrong {
        Some(Wrong::Run(slip)) => Some(slip),
        _ => None,
    };
    let run = run(terms, MOST, slip);
    if run.words > room {
        return (Told::TooFew, vec![]);
    }
    match run.came {
        Came::Success(bindings) => (Told::Success, spelled(&bindings)),
        Came::Failure => (Told::Failure, vec![]),
        Came::Full => (Told::TooFew, vec![]),
    }
}

// ---- One file

enum Log {
    Refused(u8),
    Made { count: u64, judged: Vec<Judged> },
}

/// The log with the entries that are asked about; none where the Rust can't hold the file.
fn log(file: &[u8], limits: &Limits, rng: &mut Rng) -> Option<Log> {
    let none = HashSet::new();
    let (count, visits) = match entries(file, limits, 0, &none, MOST) {
        Entries::Refused(number) => return Some(Log::Refused(number)),
        Entries::LeftOut(_) => return None,
        Entries::Made { count, visits, .. } => (count, visits),
    };
    let most = EVERY.min(MOST_VISITS / visits.max(1)).max(24);
    let (first, chosen) = if count <= most {
        (count, none)
    } else {
        let third = most / 3;
        let mut chosen: HashSet<u64> = (count - third..count).collect();
        chosen.extend((0..third).map(|_| rng.below(count as usize) as u64));
        (third, chosen)
    };
    let Entries::Made { kept, .. } = entries(file, limits, first, &chosen, MOST) else {
        unreachable!("the same file once more")
    };
    Some(Log::Made {
        count,
        judged: kept.into_iter().map(Judged::new).collect(),
    })
}

/// What a run has seen.
#[derive(Default)]
struct Counts {
    left_out: u64,
    /// Files by refusal.
    refused: BTreeMap<u8, u64>,
    entries: u64,
    asked: u64,
    /// Success, failure, shut out, fewer, 18, refused.
    told: [u64; 6],
    programs: u64,
    /// The most words that a stage needed, of those that got them.
    words: u64,
    compared: Compared,
}

/// What was wrong at an entry.
struct Fault {
    /// The kind of fault, the answer expected and the one found.
    what: String,
    text: String,
}

/// Holds an answer against what is expected.
fn check(
    expected: Told,
    judged: Option<&Judged>,
    found: &Found,
    seed: u64,
    counts: &mut Counts,
) -> Result<(), &'static str> {
    if (found.number, found.told) != expected.numbers() {
        return Err("answer");
    }
    if found.work.iter().any(|word| *word != 0) {
        return Err("work slice");
    }
    let Some(judged) = judged.filter(|_| expected == Told::Success) else {
        return if found.lent.iter().any(|word| *word != 0) {
            Err("lent slice")
        } else {
            Ok(())
        };
    };
    let Some(bindings) = unspelled(&found.lent) else {
        return Err("words");
    };
    let before = judged.entry.terms.as_ref().map_or(0, |terms| terms.before.len());
    if !assign::alike(seed, before, &judged.after, &bindings, &mut counts.compared) {
        return Err("bindings");
    }
    // Word for word the definition's.
    if let Some(Run {
        came: Came::Success(defined),
        ..
    }) = &judged.run
    {
        let defined = spelled(defined);
        if found.lent[..defined.len()] != defined || found.lent[defined.len()..].contains(&11) {
            return Err("words of the definition");
        }
    }
    Ok(())
}

/// The lengths lent at an entry: one that suffices, and now and then one that does not.
fn lengths(judged: &Judged, rng: &mut Rng) -> Vec<u64> {
    let words = judged.words();
    if judged.entry.shut_out || words > MOST {
        return vec![if rng.chance(3) { MOST } else { rng.below(2_000) as u64 }];
    }
    let enough = match rng.below(8) {
        0 | 1 => words,
        2 => words + 1,
        3 if rng.chance(5) => MOST,
        _ => words + rng.below(64) as u64,
    };
    let mut lengths = vec![enough.min(MOST)];
    match rng.below(6) {
        0 => lengths.push(words - 1),
        1 => lengths.push(rng.below(words as usize) as u64),
        _ => {}
    }
    lengths
}

/// One question: the n-th entry with so many words of work slice and so many lent.
struct Call<'a> {
    log: &'a Log,
    n: u64,
    words: usize,
    lent: u64,
    expected: Told,
    judged: Option<&'a Judged>,
}

/// The first fault of a file.
fn fault(file: &[u8], seed: u64, asked: Asked, counts: &mut Counts) -> Option<Fault> {
    let rng = &mut Rng::new(seed ^ 0x696e_7370);
    let limits = Limits {
        words: [16_384, 16_384, 20_000][rng.below(3)],
        ..Limits::default()
    };
    let Some(log) = log(file, &limits, rng) else {
        counts.left_out += 1;
        return None;
    };
    let mut calls: Vec<Call> = vec![];
    let call = |n, lent, expected, judged| Call {
        log: &log,
        n,
        words: limits.words,
        lent,
        expected,
        judged,
    };
    match &log {
        Log::Refused(number) => {
            *counts.refused.entry(*number).or_default() += 1;
            let n = [0, 0, 1, u64::from(u32::MAX)][rng.below(4)];
            calls.push(call(n, rng.below(300) as u64, Told::Refused(*number), None));
        }
        Log::Made { count, judged } => {
            counts.entries += count;
            counts.asked += judged.len() as u64;
            for judged in judged {
                if !judged.defined() {
                    let text = format!("entry {}: {:?}\n", judged.entry.number, judged.entry);
                    let what = "definition".to_owned();
                    return Some(Fault { what, text });
                }
                for lent in lengths(judged, rng) {
                    calls.push(call(judged.entry.number, lent, judged.told(lent), Some(judged)));
                }
            }
            for n in [*count, count + 1 + rng.below(1 << 20) as u64] {
                calls.push(call(n, rng.below(300) as u64, Told::Fewer, None));
            }
        }
    }
    // A work slice that is too short comes before all else.
    if rng.chance(10) {
        calls.push(Call {
            log: &Log::Refused(1),
            words: [16_383, rng.below(16_383)][rng.below(2)],
            ..call(0, rng.below(300) as u64, Told::Refused(1), None)
        });
    }
    for call in calls {
        let Call {
            log,
            n,
            words,
            lent,
            expected,
            judged,
        } = call;
        let found = match asked {
            Asked::Library => asked_library(file, n as u32, words, lent),
            Asked::Model(wrong) => asked_model(log, n, words, lent, wrong),
        };
        let kind = match expected {
            Told::Success => 0,
            Told::Failure => 1,
            Told::ShutOut => 2,
            Told::Fewer => 3,
            Told::TooFew => 4,
            Told::Refused(_) => 5,
        };
        counts.told[kind] += 1;
        if let (Some(judged), Told::Success | Told::Failure) = (judged, expected) {
            counts.words = counts.words.max(judged.words());
        }
        if let Err(what) = check(expected, judged, &found, seed ^ n.rotate_left(32), counts) {
            let used = found.lent.iter().rposition(|word| *word != 0).map_or(0, |at| at + 1);
            let dirty = found.work.iter().position(|word| *word != 0);
            let text = format!(
                "{what}, entry {n}, {lent} words lent, work of {} words\nexpected {expected:?}, found {} and {}\n\
                 work not zero at {dirty:?}\nlent {:?}\n{:?}\n",
                words,
                found.number,
                found.told,
                &found.lent[..used],
                judged.map(|judged| (&judged.entry, &judged.after)),
            );
            let what = format!("{what} {expected:?} {} {}", found.number, found.told);
            return Some(Fault { what, text });
        }
    }
    None
}

/// What the program should print of an entry.
fn printed(log: &Log, n: u64) -> Option<String> {
    Some(match log {
        Log::Refused(number) => Told::Refused(*number).line(),
        Log::Made { count, judged } => {
            if n >= *count {
                return Some(Told::Fewer.line());
            }
            let judged = judged.iter().find(|judged| judged.entry.number == n)?;
            let told = judged.told(PROGRAM);
            let mut text = told.line();
            if let (Told::Success, Some(Came::Success(bindings))) = (told, judged.run.as_ref().map(|run| &run.came)) {
                text.push_str(&run::printed(bindings));
            }
            text
        }
    })
}

/// The program at one entry of a file.
fn program_fault(program: &str, file: &[u8], seed: u64, counts: &mut Counts) -> Result<Option<Fault>, String> {
    let rng = &mut Rng::new(seed ^ 0x7072_6f67);
    let Some(log) = log(file, &Limits::default(), rng) else {
        return Ok(None);
    };
    let n = match &log {
        Log::Refused(_) => rng.below(9) as u64,
        Log::Made { judged, .. } if !judged.is_empty() && rng.chance(95) => {
            judged[rng.below(judged.len())].entry.number
        }
        Log::Made { count, .. } => *count,
    };
    let Some(expected) = printed(&log, n) else {
        return Ok(None);
    };
    counts.programs += 1;
    let found = port::program(&[program.to_owned(), n.to_string()], file)?;
    if found == expected.as_bytes() {
        return Ok(None);
    }
    let text = format!("entry {n}, expected\n{expected}found\n{}", String::from_utf8_lossy(&found));
    let what = "program".to_owned();
    Ok(Some(Fault { what, text }))
}

// ---- The run

pub fn compare(options: &Options) -> Done {
    let program = options.text("program");
    let mut asked = vec![];
    if options.flag("model") {
        asked.push(Asked::Model(None));
    }
    if linked::inspect::HAS {
        asked.push(Asked::Library);
    }
    if asked.is_empty() && program.is_none() {
        return Err("the port's plain solver was not there when oracle was built (SIGLA_LIB, or \
            target/staticlib/libsigla_lib.a at the repository's top), and there is no --program and no --model"
            .to_owned());
    }
    let corpus = Corpus::from(options)?;
    let mut mismatches = Mismatches::new(options.text("out"));
    let mut progress = Progress::new(corpus.count());
    let mut counts = Counts::default();
    for number in 0..corpus.count() {
        let item = corpus.item(number);
        for asked in &asked {
            let Some(found) = fault(&item.file, number, *asked, &mut counts) else {
                continue;
            };
            let again = |file: &[u8]| fault(file, number, *asked, &mut Counts::default());
            let small = compare::shrink(&item.file, |file| again(file).is_some_and(|other| other.what == found.what));
            let smaller = again(&small).map_or(String::new(), |fault| fault.text);
            mismatches.keep(
                &format!("inspect-{}", item.name),
                &[
                    ("file", &item.file),
                    ("found", found.text.as_bytes()),
                    ("small-file", &small),
                    ("small-found", smaller.as_bytes()),
                ],
            )?;
        }
        if let Some(program) = program
            && number % 20 == 0
            && let Some(found) = program_fault(program, &item.file, number, &mut counts)?
        {
            let name = format!("inspect-program-{}", item.name);
            mismatches.keep(&name, &[("file", &item.file), ("found", found.text.as_bytes())])?;
        }
        if mismatches.too_many() {
            break;
        }
        progress.at(number + 1, mismatches.count);
    }
    let [success, failure, shut_out, fewer, too_few, refused] = counts.told;
    println!(
        "  told: success {success}, failure {failure}, shut out {shut_out}, fewer {fewer}, 18 {too_few}, \
         refused {refused}"
    );
    let by_number = counts.refused.iter().map(|(number, files)| format!("{number}: {files}"));
    println!("  refused by number: {}", by_number.collect::<Vec<_>>().join(", "));
    println!(
        "  assignments {}, of which {} respect the bindings; the most words of an entry solved {}; by the program {}",
        counts.compared.assignments, counts.compared.respecting, counts.words, counts.programs
    );
    println!(
        "compare inspect: {} files, {} left out, {} refused, {} entries, asked about {}, {} mismatches",
        corpus.count(),
        counts.left_out,
        counts.refused.values().sum::<u64>(),
        counts.entries,
        counts.asked,
        mismatches.count
    );
    Ok(mismatches.count == 0)
}

// ---- For the self-test

/// What a solver with this mistake, or none, is told by in so many files, and in which first.
pub fn told(wrong: Option<Wrong>, files: u64) -> Option<(u64, String)> {
    let mut counts = Counts::default();
    (0..files).find_map(|number| {
        let file = match number % 2 {
            0 => trial::file(12, number).1,
            _ => files::generate(files::PAIRS, number),
        };
        let fault = fault(&file, number, Asked::Model(wrong), &mut counts)?;
        Some((number, fault.what))
    })
}

/// What is told of each entry of a file with so many words lent, and after the last.
pub fn lines(file: &[u8], lent: u64) -> String {
    let rng = &mut Rng::new(0);
    match log(file, &Limits::default(), rng) {
        None => "left out\n".to_owned(),
        Some(Log::Refused(number)) => Told::Refused(number).line(),
        Some(Log::Made { judged, .. }) => {
            let told = judged.iter().map(|judged| {
                let mut text = judged.told(lent).line();
                if let (Told::Success, Some(Came::Success(bindings))) =
                    (judged.told(lent), judged.run.as_ref().map(|run| &run.came))
                {
                    text.push_str(&run::printed(bindings));
                }
                text
            });
            told.collect::<String>() + &Told::Fewer.line()
        }
    }
}
