//! `oracle compare lamp` and `oracle bench lamp`: card 4's lamp beside the Rust's diagnostics and beside the
//! full call.

use std::time::{Duration, Instant};

use judge::{File, Lamp, Limits, Node, Shape, Stmt};

use crate::Done;
use crate::corpus::Corpus;
use crate::mismatch::Mismatches;
use crate::options::Options;
use crate::tally::Progress;

const NO_LAMP: &str = "the lamp was not there when oracle was built (SIGLA_LIB, or \
    target/staticlib/libsigla_lib.a at the repository's top)";

/// Longer than any answer that is held against a lamp; where one is longer still, the call tells 12.
const LONG: usize = 1 << 24;

/// What the port's lamp says of a file, with a work slice of so many words, full of ff before.
fn lit(file: &[u8], words: usize) -> String {
    let mut work = vec![u32::MAX; words];
    let (number, lit) = linked::lamp(file, &mut work);
    let clean = work.iter().all(|word| *word == 0);
    format!("outcome {number}, lit {lit}, work zero: {clean}\n")
}

/// What it should say, by the Rust.
fn should(file: &[u8], words: usize) -> Option<String> {
    let limits = Limits {
        words,
        ..Limits::default()
    };
    let (number, lit) = match judge::lamp(file, &limits) {
        Lamp::Yes => (0, 1),
        Lamp::No => (0, 0),
        Lamp::Refused(number) => (number, 0),
        Lamp::LeftOut(_) => return None,
    };
    Some(format!("outcome {number}, lit {lit}, work zero: true\n"))
}

/// The full call's number, and whether its answer has an 08 line. Where the program's slice is too short, a longer
/// one is lent.
fn full(file: &[u8], answer: &mut [u8], work: &mut [u32]) -> (u8, bool) {
    let short = &mut answer[..Limits::default().bytes];
    let number = linked::check(file, work, short);
    if number != 12 {
        return (number, has_08(short));
    }
    let number = linked::check(file, work, answer);
    (number, has_08(answer))
}

fn has_08(answer: &[u8]) -> bool {
    let lines = answer.split(|byte| *byte == b'\n');
    let mut own = lines.take_while(|line| line.first().is_some_and(|byte| *byte != 0));
    own.any(|line| line.starts_with(b"08"))
}

/// Whether the full call agrees: it has an 08 line exactly where the lamp is lit, or the same refusal, or it is
/// out of visits and the lamp is lit all the same.
fn agrees(number: u8, has_08: bool, found: &str) -> bool {
    match number {
        0 => {
            let lit = u8::from(has_08);
            found == format!("outcome 0, lit {lit}, work zero: true\n")
        }
        11 => found.starts_with("outcome 11, lit 0") || found.starts_with("outcome 0, lit 1"),
        12 => found.starts_with("outcome 0") || found.starts_with("outcome 11"),
        number => found == format!("outcome {number}, lit 0, work zero: true\n"),
    }
}

pub fn compare(options: &Options) -> Done {
    if !linked::HAS_LAMP || !linked::HAS_CHECK {
        return Err(format!("nothing to compare: {NO_LAMP}"));
    }
    let corpus = Corpus::from(options)?;
    let mut mismatches = Mismatches::new(options.text("out"));
    let mut progress = Progress::new(corpus.count());
    let mut answer = vec![0_u8; LONG];
    let mut work = vec![0_u32; 20_000];
    let mut left_out = 0;
    // lit, dark, lit where the full call is out of visits, and refused
    let mut kinds = [0_u64; 4];
    for number in 0..corpus.count() {
        let item = corpus.item(number);
        let words = [16_384, 16_384, 16_384, 20_000, 16_383][(number % 5) as usize];
        let found = lit(&item.file, words);
        let (number_of_full, has_08) = full(&item.file, &mut answer, &mut work[..words]);
        let beside = agrees(number_of_full, has_08, &found);
        match should(&item.file, words) {
            None => left_out += 1,
            Some(expected) if found == expected && beside => {}
            Some(expected) => mismatches.keep(
                &format!("lamp-{}", item.name),
                &[
                    ("file", &item.file),
                    ("expected", expected.as_bytes()),
                    ("found", found.as_bytes()),
                ],
            )?,
        }
        let refused = number_of_full == 11;
        let kind = match &found[..16] {
            "outcome 0, lit 1" if refused => 2,
            "outcome 0, lit 1" => 0,
            "outcome 0, lit 0" => 1,
            _ => 3,
        };
        kinds[kind] += 1;
        if mismatches.too_many() {
            break;
        }
        progress.at(number + 1, mismatches.count);
    }
    let [yes, no, early, refused] = kinds;
    println!(
        "compare lamp: {} files, {left_out} left out, {yes} lit, {early} lit where the full call is out of visits, \
         {no} dark, {refused} refused, {} mismatches",
        corpus.count(),
        mismatches.count
    );
    Ok(mismatches.count == 0)
}

/// A statement that binds a literal, as the query's n-th.
fn with_a_diagnostic(mut file: File, at: impl Fn(usize) -> usize) -> Vec<u8> {
    let tree = &mut file.trees[0];
    let left = tree.nodes.len() as u16;
    for _ in 0..2 {
        tree.nodes.push(Node {
            start: 0,
            end: 0,
            shape: Shape::Int,
        });
    }
    let place = at(tree.query.body.len());
    tree.query.body.insert(place, Stmt::Bind(left, left + 1));
    judge::encode(&file)
}

/// The quickest of so many rounds.
fn quickest(rounds: u32, mut work: impl FnMut()) -> Duration {
    (0..rounds)
        .map(|_| {
            let start = Instant::now();
            work();
            start.elapsed()
        })
        .min()
        .unwrap_or_default()
}

/// The lamp's time and the full call's on one file.
pub struct Lit {
    pub name: String,
    /// Where the diagnostic stands.
    pub place: &'static str,
    visits: u64,
    lamp: Duration,
    full: Duration,
}

impl Lit {
    pub fn ratio(&self) -> f64 {
        self.lamp.as_secs_f64() / self.full.as_secs_f64()
    }
}

/// Files of many visits with a diagnostic first, in the midst and last.
pub fn times(rounds: u32) -> Result<Vec<Lit>, String> {
    if !linked::HAS_LAMP || !linked::HAS_CHECK {
        return Err(format!("nothing to time: {NO_LAMP}"));
    }
    let limits = Limits::default();
    let mut answer = vec![0_u8; limits.bytes];
    let mut work = vec![0_u32; limits.words];
    let mut all = vec![];
    let places: [(&str, fn(usize) -> usize); 3] = [("first", |_| 0), ("midst", |n| n / 2), ("last", |n| n)];
    let mut taken = 0;
    for seed in 0..1000 {
        let whole = files::generate("visits", seed);
        let ran = judge::answer(&whole, &limits);
        let visits: u64 = ran.visits.iter().sum();
        let Ok(file) = judge::read(&whole, &limits) else { continue };
        if visits < 500_000 || file.trees.len() != 1 || file.trees[0].nodes.len() > 510 || taken == 4 {
            continue;
        }
        taken += 1;
        for (place, at) in places {
            let bytes = with_a_diagnostic(file.clone(), at);
            let lamp = quickest(rounds, || {
                linked::lamp(&bytes, &mut work);
            });
            let full = quickest(rounds, || {
                linked::check(&bytes, &mut work, &mut answer);
            });
            all.push(Lit { name: format!("visits-{seed}"), place, visits, lamp, full });
        }
    }
    Ok(all)
}

pub fn bench(rounds: u32) -> Done {
    println!("{:>10} {:>10} {:>9} {:>12} {:>12} {:>8}", "file", "diagnostic", "visits", "lamp us", "full us", "ratio");
    for lit in times(rounds)? {
        let (lamp, full) = (lit.lamp.as_secs_f64() * 1e6, lit.full.as_secs_f64() * 1e6);
        println!(
            "{:>10} {:>10} {:>9} {lamp:>12.1} {full:>12.1} {:>8.4}",
            lit.name,
            lit.place,
            lit.visits,
            lit.ratio()
        );
    }
    Ok(true)
}
