//! `oracle compare convert`: the two converters of card 6 beside their definition, and out and back.

use std::collections::BTreeMap;
use std::hint::black_box;
use std::time::{Duration, Instant};

use judge::{Answer, Edition, Limits};

use crate::Done;
use crate::compare::NO_LIBRARY;
use crate::corpus::Corpus;
use crate::mismatch::Mismatches;
use crate::options::Options;
use crate::port::{self, Given};
use crate::printed::printed;
use crate::tally::Progress;

/// What is held against the definition.
enum Converter {
    /// Two programs, out and back, from standard input to standard output, with the program's slices.
    Programs(Vec<String>, Vec<String>),
    Library,
    /// The second reading of the card, right or with a mistake.
    Model(Option<usize>),
}

impl Converter {
    fn name(&self) -> &'static str {
        match self {
            Converter::Programs(..) => "programs",
            Converter::Library => "library",
            Converter::Model(_) => "model",
        }
    }

    /// What it gives for a file.
    fn given(&self, file: &[u8], from: Edition, limits: &Limits) -> Result<Given, String> {
        match self {
            Converter::Programs(widen, narrow) => port::program(
                match from {
                    Edition::Narrow => widen,
                    Edition::Wide => narrow,
                },
                file,
            ),
            Converter::Library => {
                let mut work = vec![u32::MAX; limits.words];
                let mut out = vec![0xff; limits.bytes];
                let number = match from {
                    Edition::Narrow => linked::convert::widen(file, &mut work, &mut out),
                    Edition::Wide => linked::convert::narrow(file, &mut work, &mut out),
                };
                Ok(port::describe(number, &work, &out))
            }
            Converter::Model(mistake) => {
                let out = from == Edition::Narrow;
                let answer = model::convert(file, out, &trial::as_model(limits), *mistake);
                Ok(printed(&as_judged(answer))?)
            }
        }
    }

    /// What it should give.
    fn wanted(&self, answer: &Answer, limits: &Limits) -> Result<Given, String> {
        match self {
            Converter::Library => {
                let (number, lines) = match answer {
                    Answer::Lines(lines) => (0, &lines[..]),
                    Answer::Refused(number) => (*number, &[][..]),
                    Answer::LeftOut(why) => return Err((*why).to_owned()),
                };
                let mut out = lines.to_vec();
                out.resize(limits.bytes, 0);
                Ok(port::describe(number, &vec![0; limits.words], &out))
            }
            _ => Ok(printed(answer)?),
        }
    }
}

pub fn as_judged(answer: model::Answer) -> Answer {
    match answer {
        model::Answer::Lines(lines) => Answer::Lines(lines),
        model::Answer::Refused(number) => Answer::Refused(number),
    }
}

fn converters(options: &Options) -> Result<Vec<Converter>, String> {
    let words =
        |text: &str| -> Vec<String> { text.split_whitespace().map(str::to_owned).collect() };
    let mut all = vec![];
    if let (Some(widen), Some(narrow)) = (options.text("widen"), options.text("narrow")) {
        all.push(Converter::Programs(words(widen), words(narrow)));
    }
    if options.flag("model") {
        all.push(Converter::Model(None));
    }
    if linked::convert::HAS {
        all.push(Converter::Library);
    }
    if all.is_empty() {
        return Err(format!(
            "nothing to compare with: no --model, no --widen and --narrow, and {NO_LIBRARY} or has no converters"
        ));
    }
    Ok(all)
}

/// A run: what is compared, and the counts.
struct Run {
    converters: Vec<Converter>,
    mismatches: Mismatches,
    asked: u64,
    /// Outcomes out and back, by number; 0 is a converted file.
    outcomes: [BTreeMap<u8, u64>; 2],
    /// Files that came back as they were: narrow ones by way of the wide edition, wide ones of the narrow.
    returned: [u64; 2],
    /// Narrow files whose wide one is over 65,536 bytes.
    outgrown: u64,
}

pub fn compare(options: &Options) -> Done {
    if let Some(path) = options.text("recorded") {
        return recorded(path);
    }
    let mut run = Run {
        converters: converters(options)?,
        mismatches: Mismatches::new(options.text("out")),
        asked: 0,
        outcomes: Default::default(),
        returned: [0; 2],
        outgrown: 0,
    };
    let corpus = Corpus::from(options)?;
    let mut progress = Progress::new(corpus.count());
    for number in 0..corpus.count() {
        let item = corpus.item(number);
        let narrow = files::narrowed(&item.file);
        run.one(&item.name, &narrow, Edition::Narrow, number)?;
        run.one(&item.name, &item.file, Edition::Wide, number)?;
        if run.mismatches.too_many() {
            println!("stopped after {} mismatches", run.mismatches.count);
            break;
        }
        progress.at(number + 1, run.mismatches.count);
    }
    for (way, outcomes) in ["out", "back"].iter().zip(&run.outcomes) {
        let counts: Vec<String> = outcomes
            .iter()
            .map(|(number, count)| match number {
                0 => format!("converted {count}"),
                _ => format!("{number}: {count}"),
            })
            .collect();
        println!("  {way}: {}", counts.join(", "));
    }
    println!(
        "  narrow files past 1 to 10 and 13 whose wide file has over 65,536 bytes: {}",
        run.outgrown
    );
    println!(
        "compare convert: {} files of each edition, {} comparisons; out and back the first file again {}, \
         back and out {}; {} mismatches",
        corpus.count(),
        run.asked,
        run.returned[0],
        run.returned[1],
        run.mismatches.count
    );
    Ok(run.mismatches.count == 0)
}

impl Run {
    /// One file of one edition: converted with the program's slices and with others, and turned back.
    fn one(&mut self, name: &str, file: &[u8], from: Edition, number: u64) -> Result<(), String> {
        let usual = Limits::default();
        let way = usize::from(from == Edition::Wide);
        let outcome = match judge::convert(file, from, &usual) {
            Answer::Refused(number) => number,
            _ => 0,
        };
        *self.outcomes[way].entry(outcome).or_default() += 1;
        let ample = Limits {
            bytes: usize::MAX,
            ..usual
        };
        let whole = judge::convert(file, from, &ample);
        self.ask(name, file, from, &usual)?;
        self.ask(name, file, from, &other_limits(&whole, number))?;
        let Answer::Lines(converted) = whole else {
            return Ok(());
        };
        let other = match from {
            Edition::Narrow => Edition::Wide,
            Edition::Wide => Edition::Narrow,
        };
        if converted.len() > usual.bytes {
            self.outgrown += 1;
            // It can be made; nobody can read it.
            let room = Limits {
                bytes: converted.len(),
                ..usual
            };
            self.ask(name, file, from, &room)?;
            self.ask(name, &converted, other, &room)?;
            return Ok(());
        }
        // What it says is the same in both editions.
        let same = judge::read_in(file, &usual, from) == judge::read_in(&converted, &usual, other);
        let back = judge::convert(&converted, other, &usual) == Answer::Lines(file.to_vec());
        if !same || !back {
            self.mismatches.keep(
                &format!("definition-{name}-{from:?}"),
                &[("file", file), ("converted", &converted)],
            )?;
        }
        // The file that the converters made is this one, by the comparison above.
        if self.ask(name, &converted, other, &usual)? && back {
            self.returned[way] += 1;
        }
        Ok(())
    }

    /// Holds each converter against the definition; tells whether all are as they should be.
    fn ask(
        &mut self,
        name: &str,
        file: &[u8],
        from: Edition,
        limits: &Limits,
    ) -> Result<bool, String> {
        let answer = judge::convert(file, from, limits);
        let mut same = true;
        for converter in &self.converters {
            let usual_alone = matches!(converter, Converter::Programs(..));
            if usual_alone && *limits != Limits::default() {
                continue;
            }
            self.asked += 1;
            let found = converter.given(file, from, limits)?;
            let expected = converter.wanted(&answer, limits)?;
            if found != expected {
                same = false;
                let lent = format!("{from:?}, {} words, {} bytes\n", limits.words, limits.bytes);
                self.mismatches.keep(
                    &format!("convert-{}-{name}-{from:?}", converter.name()),
                    &[
                        ("lent", lent.as_bytes()),
                        ("file", file),
                        ("expected", &expected),
                        ("found", &found),
                    ],
                )?;
            }
        }
        Ok(same)
    }
}

/// Lengths around each boundary, and the converted file's own.
fn other_limits(whole: &Answer, number: u64) -> Limits {
    let length = match whole {
        Answer::Lines(lines) => lines.len(),
        _ => 65_536,
    };
    let some = (number.wrapping_mul(0x9e37_79b9_7f4a_7c15) >> 33) as usize;
    let (words, bytes) = match number % 9 {
        0 => (16_384, length),
        1 => (16_384, length.saturating_sub(1)),
        2 => (16_385, length + 1),
        3 => (20_000, 0),
        4 => (16_383, 65_536),
        5 => (0, 0),
        6 => (16_384, some % (length + 1)),
        7 => (some % 16_384, length),
        _ => (20_000, 80_000),
    };
    Limits {
        words,
        bytes,
        ..Limits::default()
    }
}

/// Which mistakes in a conversion the first `count` files tell from the right one.
pub fn mistakes(seed: u64, count: u64) -> Vec<&'static str> {
    let mut told: Vec<Option<u64>> = vec![None; model::CONVERSIONS.len()];
    for number in 0..count {
        let (_, wide) = trial::file(seed, number);
        let narrow = files::narrowed(&wide);
        for (out, file) in [(true, &narrow), (false, &wide)] {
            let from = if out { Edition::Narrow } else { Edition::Wide };
            let ample = Limits {
                bytes: usize::MAX,
                ..Limits::default()
            };
            let whole = judge::convert(file, from, &ample);
            for limits in [Limits::default(), other_limits(&whole, number)] {
                let right = judge::convert(file, from, &limits);
                for (mistake, told) in told.iter_mut().enumerate() {
                    if told.is_some() {
                        continue;
                    }
                    let wrong = model::convert(file, out, &trial::as_model(&limits), Some(mistake));
                    if as_judged(wrong) != right {
                        *told = Some(number);
                    }
                }
            }
        }
        if told.iter().all(Option::is_some) {
            break;
        }
    }
    print_told("a conversion", &model::CONVERSIONS, &told)
}

/// Says of each mistake which item told it, and gives those that none told.
pub fn print_told(what: &str, names: &[&'static str], told: &[Option<u64>]) -> Vec<&'static str> {
    let mut open = vec![];
    for (name, told) in names.iter().zip(told) {
        match told {
            Some(at) => println!("{name:64} told by {at}"),
            None => {
                println!("{name:64} NOT TOLD");
                open.push(*name);
            }
        }
    }
    println!(
        "{} of {} mistakes in {what} told",
        names.len() - open.len(),
        names.len()
    );
    open
}

/// A recorded sample of the narrow edition, from before cards 6 and 7: each file, widened, is answered as
/// recorded, with its predicate numbers widened and a line 09 more for each query.
fn recorded(path: &str) -> Done {
    let stored = std::fs::read(path).map_err(|why| format!("{path}: {why}"))?;
    let limits = Limits::default();
    let (mut cases, mut accepted, mut facts, mut differing) = (0, 0, 0, 0);
    for (file, answer) in crate::record::cases(&stored)? {
        cases += 1;
        let now = match judge::convert(file, Edition::Narrow, &limits) {
            Answer::Lines(wide) => {
                if linked::HAS_CHECK && linked::convert::HAS {
                    let (mut work, mut out) = (vec![0; limits.words], vec![0; limits.bytes]);
                    let number = linked::convert::widen(file, &mut work, &mut out);
                    if number != 0 || !out.starts_with(&wide) || out.get(wide.len()) != Some(&0) {
                        differing += 1;
                        continue;
                    }
                }
                judge::answer(&wide, &limits).answer
            }
            refused => refused,
        };
        let now = printed(&now)?;
        let (then, numbers) = widened_answer(answer);
        facts += u64::from(numbers > 0);
        accepted += u64::from(!answer.starts_with(b"0f"));
        if rusts_own(&now) != then {
            differing += 1;
        }
    }
    println!(
        "compare convert --recorded: {cases} cases, {accepted} accepted, {facts} with a predicate in the answer, \
         {differing} answered otherwise"
    );
    Ok(differing == 0)
}

/// The lines of an answer but those of the visits and of names written once, which the Rust knows nothing of.
pub fn rusts_own(answer: &[u8]) -> Vec<u8> {
    answer
        .split_inclusive(|byte| *byte == b'\n')
        .filter(|line| !line.starts_with(b"09") && !line.starts_with(b"0c"))
        .collect::<Vec<_>>()
        .concat()
}

/// An answer of the narrow edition with 0000 put before each predicate's number, and how many there are.
fn widened_answer(answer: &[u8]) -> (Vec<u8>, u64) {
    let mut wide = vec![];
    let mut count = 0;
    for line in answer.split_inclusive(|byte| *byte == b'\n') {
        if !line.starts_with(b"07") {
            wide.extend_from_slice(line);
            continue;
        }
        wide.extend_from_slice(&line[..6]);
        let end = widened_type(line, 6, &mut wide, &mut count);
        wide.extend_from_slice(&line[end..]);
    }
    (wide, count)
}

/// One type from `at` on; gives where it ends.
fn widened_type(line: &[u8], at: usize, wide: &mut Vec<u8>, count: &mut u64) -> usize {
    let number = |at: usize| {
        let text = std::str::from_utf8(&line[at..at + 4]).expect("digits");
        usize::from_str_radix(text, 16).expect("digits")
    };
    wide.extend_from_slice(&line[at..at + 2]);
    let mut next = at + 2;
    match &line[at..at + 2] {
        b"03" => {
            *count += 1;
            wide.extend_from_slice(b"0000");
            wide.extend_from_slice(&line[next..next + 4]);
            next + 4
        }
        b"06" => {
            wide.extend_from_slice(&line[next..next + 4]);
            next + 4
        }
        tag @ (b"04" | b"05") => {
            let parts = number(next);
            let before = if tag == b"04" { 4 } else { 12 };
            wide.extend_from_slice(&line[next..next + 4]);
            next += 4;
            for _ in 0..parts {
                wide.extend_from_slice(&line[next..next + before]);
                next = widened_type(line, next + before, wide, count);
            }
            next
        }
        _ => next,
    }
}

/// One file's times, each the quickest.
pub struct Converted {
    pub name: String,
    pub bytes: usize,
    pub widen: Duration,
    pub back: Duration,
    /// Reading and clearing alone.
    pub read: Duration,
    defined: Duration,
    pub copy: Duration,
}

/// Times of a conversion beside the reading alone and beside a copy of the file.
pub fn times(rounds: u32) -> Result<Vec<Converted>, String> {
    if !linked::convert::HAS || !linked::HAS_CHECK {
        return Err(format!(
            "nothing to time: {NO_LIBRARY} or has no converters"
        ));
    }
    let limits = Limits {
        bytes: 80_000,
        ..Limits::default()
    };
    let mut work = vec![0; limits.words];
    let mut out = vec![0; limits.bytes];
    let mut all = vec![];
    for (name, wide) in sizes() {
        let Answer::Lines(narrow) = judge::convert(&wide, Edition::Wide, &limits) else {
            return Err(format!("{name} can't be converted"));
        };
        let last = wide[..wide.len() - 1]
            .iter()
            .rposition(|byte| *byte == b'\n');
        let unfinished = &wide[..last.map_or(0, |at| at + 1)];
        let mut best = [Duration::MAX; 5];
        for _ in 0..rounds {
            let mut lap = |place: usize, call: &mut dyn FnMut()| {
                let started = Instant::now();
                call();
                best[place] = best[place].min(started.elapsed());
            };
            lap(0, &mut || {
                black_box(linked::convert::widen(
                    black_box(&narrow),
                    &mut work,
                    &mut out,
                ));
            });
            lap(1, &mut || {
                black_box(linked::convert::narrow(
                    black_box(&wide),
                    &mut work,
                    &mut out,
                ));
            });
            // Without its last line a file is read whole and refused by 4: reading and clearing alone.
            lap(2, &mut || {
                black_box(linked::check(black_box(unfinished), &mut work, &mut out));
            });
            lap(3, &mut || {
                black_box(judge::convert(black_box(&narrow), Edition::Narrow, &limits));
            });
            lap(4, &mut || {
                out[..wide.len()].copy_from_slice(black_box(&wide));
                black_box(&out);
            });
        }
        let [widen, back, read, defined, copy] = best;
        all.push(Converted { name, bytes: narrow.len(), widen, back, read, defined, copy });
    }
    Ok(all)
}

pub fn bench(rounds: u32) -> Done {
    println!("us for a file: out, back, reading and clearing alone, the definition's out, a copy");
    for one in times(rounds)? {
        let [widen, back, read, defined, copy] =
            [one.widen, one.back, one.read, one.defined, one.copy].map(|time| time.as_secs_f64() * 1e6);
        println!(
            "{:24} {:6} bytes: {widen:8.1} {back:8.1} {read:8.1} {defined:8.1} {copy:8.2}; out / reading {:.2}",
            one.name,
            one.bytes,
            widen / read
        );
    }
    Ok(true)
}

/// The sample of the document, and files that grow up to the longest.
fn sizes() -> Vec<(String, Vec<u8>)> {
    let mut all = vec![];
    for (name, seed) in [("grown", 3), ("forms", 5), ("large", 1), ("many-facts", 4)] {
        let file = (seed..)
            .map(|seed| files::generate(name, seed))
            .find(|file| {
                let read = judge::read(file, &Limits::default());
                read.is_ok_and(|read| judge::references(&read).all(|number| number <= 65_535))
            });
        all.push((name.to_owned(), file.expect("such files are made")));
    }
    all
}
