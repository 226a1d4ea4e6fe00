//! `oracle bench`: how long the port's calls take beside the Rust, on the same files in one process.

use std::hint::black_box;
use std::time::{Duration, Instant};

use judge::{Answer, Limits, Parts};

use crate::Done;
use crate::corpus;
use crate::options::Options;

/// Files of each style, and how often each is run; the quickest run of each side counts.
const COUNT: u64 = 60;
const ROUNDS: u32 = 7;

pub fn run(given: &[String]) -> Done {
    let options = Options::parse(given, &["seed", "count", "rounds", "style"], &[])?;
    let rounds = options.number("rounds")?.unwrap_or(ROUNDS).max(1);
    match &options.words[..] {
        [what] if what == "answers" && linked::HAS_CHECK => answers(&options, rounds),
        [what] if what == "reading" && linked::HAS_READ => reading(&options, rounds),
        [what] if what == "shapes" && linked::HAS_CHECK => shapes(rounds),
        [what] if what == "messages" && linked::HAS_CHECK => parts(&files::speaking(), rounds),
        [what] if what == "forms" && linked::HAS_CHECK => forms(rounds),
        [what] if what == "report" && linked::HAS_CHECK => crate::report::run(rounds),
        [what] if what == "convert" => crate::convert::bench(rounds),
        [what] if what == "lamp" => crate::lamp::bench(rounds),
        [what] if what == "texts" => crate::texts::bench(rounds.max(20)),
        [what]
            if ["answers", "reading", "shapes", "messages", "forms", "report"]
                .contains(&what.as_str()) =>
        {
            Err(format!("nothing to time: {}", crate::compare::NO_LIBRARY))
        }
        _ => Err(
            "bench what? one of answers, convert, reading, shapes, messages, forms, lamp, report, texts"
                .to_owned(),
        ),
    }
}

/// How both sides were built; the workspace's Cargo.toml has it.
pub const BEST: &str = "the Rust: opt-level 3, fat link-time optimization, one codegen unit, no debug assertions; the port: rt lib";

/// One file's times: the quickest of all rounds.
struct Timed {
    bytes: usize,
    port: Duration,
    rust: Duration,
    /// The Rust with the answer's lines, where whole answers are timed.
    lines: Duration,
}

/// The slices that the port is lent, as the program lends them.
pub struct Slices {
    pub work: Vec<u32>,
    answer: Vec<u8>,
}

impl Slices {
    pub fn new(limits: &Limits) -> Self {
        Slices {
            work: vec![0; limits.words],
            answer: vec![0; limits.bytes],
        }
    }

    pub fn check(&mut self, file: &[u8]) -> Duration {
        let started = Instant::now();
        black_box(linked::check(
            black_box(file),
            &mut self.work,
            &mut self.answer,
        ));
        started.elapsed()
    }

    pub fn read(&mut self, file: &[u8]) -> Duration {
        let started = Instant::now();
        black_box(linked::read(black_box(file), &mut self.work));
        started.elapsed()
    }
}

/// The styles asked for, and the first number of their files.
fn wanted(options: &Options) -> Result<(Vec<&'static str>, u64, u64), String> {
    let styles = match corpus::style(options)? {
        Some(style) => vec![style],
        None => files::STYLES.to_vec(),
    };
    let seed = options.number("seed")?.unwrap_or(1);
    let count = options.number("count")?.unwrap_or(COUNT);
    Ok((styles, seed, count))
}

/// Whole calls: the port's beside the Rust's reading, building and `check`.
fn answers(options: &Options, rounds: u32) -> Done {
    let (styles, seed, count) = wanted(options)?;
    let limits = Limits::default();
    let mut slices = Slices::new(&limits);
    let mut all = vec![];
    println!("{BEST}");
    println!(
        "the port's call / the Rust's reading, tree and check; [the answer's lines counted too]"
    );
    heading();
    for style in styles {
        let mut timed = vec![];
        let mut left_out = 0;
        for number in 0..count {
            let file = files::generate(style, trial::nth(seed, number));
            // The Rust has no limit of visits and none for types' size.
            let answer = judge::answer(&file, &limits).answer;
            if matches!(answer, Answer::LeftOut(_) | Answer::Refused(11 | 12)) {
                left_out += 1;
                continue;
            }
            right(&format!("{style} {number}"), &file, &answer, &limits)?;
            timed.push(answer_times(&file, &limits, rounds, &mut slices));
        }
        line(style, &timed, left_out);
        all.append(&mut timed);
    }
    if options.text("style").is_some() {
        return Ok(true);
    }
    println!();
    by_size(&all);
    println!();
    grown(
        |file| answer_times(file, &limits, rounds, &mut slices),
        &limits,
    )?;
    println!();
    let clearing = (0..rounds.max(100)).map(|_| slices.check(b"")).min();
    println!(
        "clearing both slices (the call on an empty file): {:.2} us",
        micros(clearing.unwrap_or_default())
    );
    Ok(true)
}

/// The reading alone: the port's beside the first reader.
fn reading(options: &Options, rounds: u32) -> Done {
    let (styles, seed, count) = wanted(options)?;
    let limits = Limits::default();
    let mut slices = Slices::new(&limits);
    let mut all = vec![];
    println!(
        "the port's reading / the judge's reader; the port clears the work slice after a refusal"
    );
    heading();
    for style in styles {
        let mut timed: Vec<Timed> = (0..count)
            .map(|number| {
                let file = files::generate(style, trial::nth(seed, number));
                read_times(&file, &limits, rounds, &mut slices)
            })
            .collect();
        line(style, &timed, 0);
        all.append(&mut timed);
    }
    if options.text("style").is_some() {
        return Ok(true);
    }
    println!();
    by_size(&all);
    println!();
    grown(
        |file| read_times(file, &limits, rounds, &mut slices),
        &limits,
    )?;
    Ok(true)
}

/// Runs both sides in turn, so that what slows the machine slows both.
fn answer_times(file: &[u8], limits: &Limits, rounds: u32, slices: &mut Slices) -> Timed {
    let mut best = Timed::of(file);
    for _ in 0..rounds {
        best.port = best.port.min(slices.check(file));
        let parts: Parts = judge::timed(file, limits);
        best.rust = best.rust.min(parts.checked());
        best.lines = best.lines.min(parts.answered());
    }
    best
}

fn read_times(file: &[u8], limits: &Limits, rounds: u32, slices: &mut Slices) -> Timed {
    let mut best = Timed::of(file);
    for _ in 0..rounds {
        best.port = best.port.min(slices.read(file));
        let started = Instant::now();
        drop(black_box(judge::read(black_box(file), limits)));
        best.rust = best.rust.min(started.elapsed());
    }
    best.lines = best.rust;
    best
}

impl Timed {
    fn of(file: &[u8]) -> Self {
        Timed {
            bytes: file.len(),
            port: Duration::MAX,
            rust: Duration::MAX,
            lines: Duration::MAX,
        }
    }

    fn ratio(&self) -> f64 {
        self.port.as_secs_f64() / self.rust.as_secs_f64().max(1e-9)
    }
}

fn micros(time: Duration) -> f64 {
    time.as_secs_f64() * 1e6
}

fn heading() {
    println!(
        "{:20} {:>5} {:>7} {:>10} {:>10} {:>7} {:>7}   {:>6} {:>6} {:>6} {:>6}",
        "files",
        "count",
        "bytes",
        "port us",
        "Rust us",
        "ratio",
        "[lines]",
        "10 %",
        "half",
        "90 %",
        "most"
    );
}

/// Means of bytes and times, the ratio of the sums, and how the files' own ratios spread.
fn line(name: &str, timed: &[Timed], left_out: u64) {
    if timed.is_empty() {
        println!("{name:20} {:5} all {left_out} left out", 0);
        return;
    }
    let sum = |of: fn(&Timed) -> Duration| timed.iter().map(of).sum::<Duration>();
    let (port, rust, lines) = (
        sum(|file| file.port),
        sum(|file| file.rust),
        sum(|file| file.lines),
    );
    let count = timed.len();
    let mut ratios: Vec<f64> = timed.iter().map(Timed::ratio).collect();
    ratios.sort_by(f64::total_cmp);
    let at = |share: usize| ratios[(count - 1) * share / 100];
    println!(
        "{name:20} {count:5} {:7} {:10.2} {:10.2} {:7.2} {:>7}   {:6.2} {:6.2} {:6.2} {:6.2}{}",
        timed.iter().map(|file| file.bytes).sum::<usize>() / count,
        micros(port) / count as f64,
        micros(rust) / count as f64,
        port.as_secs_f64() / rust.as_secs_f64(),
        format!("[{:.2}]", port.as_secs_f64() / lines.as_secs_f64()),
        at(10),
        at(50),
        at(90),
        at(100),
        if left_out > 0 {
            format!("  ({left_out} left out)")
        } else {
            String::new()
        }
    );
}

/// The same files by their length.
fn by_size(all: &[Timed]) {
    let mut from = 0;
    for to in [256, 1024, 4096, 16_384, 65_537, usize::MAX] {
        let some: Vec<Timed> = all
            .iter()
            .filter(|file| (from..to).contains(&file.bytes))
            .map(|file| Timed { ..*file })
            .collect();
        if !some.is_empty() {
            line(&format!("from {from} bytes"), &some, 0);
        }
        from = to;
    }
}

/// Files that grow in one respect, at a quarter, half and all of its limit.
fn grown(mut time: impl FnMut(&[u8]) -> Timed, limits: &Limits) -> Result<(), String> {
    for (what, most) in files::GROWING {
        for count in [most / 4, most / 2, most] {
            let file = files::filled(what, count).expect("it is listed");
            if let Answer::Refused(number) = judge::answer(&file, limits).answer {
                return Err(format!("{what} {count} is refused with {number}"));
            }
            line(&format!("{what} {count}"), &[time(&file)], 0);
        }
    }
    Ok(())
}

/// Four generated files of about a million visits.
pub fn million(limits: &Limits) -> Vec<(String, Vec<u8>)> {
    (0..40)
        .map(|seed| (format!("visits-{seed}"), files::generate("visits", seed)))
        .filter(|(_, file)| matches!(judge::answer(file, limits).answer, Answer::Lines(_)))
        .take(4)
        .collect()
}

/// Files of one shape each, with where the time goes on both sides, and a million visits.
fn shapes(rounds: u32) -> Done {
    let limits = Limits::default();
    let mut all = files::shapes();
    for (what, most) in files::GROWING {
        let file = files::filled(what, most).expect("it is listed");
        all.push((format!("{what}-{most}"), file));
    }
    for (name, file) in files::nested() {
        if ["everything-0-true", "everything-2-true"].contains(&name.as_str()) {
            all.push((name, file));
        }
    }
    all.extend(million(&limits));
    parts(&all, rounds)
}

/// Each file's time and where it goes, on both sides.
fn parts(all: &[(String, Vec<u8>)], rounds: u32) -> Done {
    let limits = Limits::default();
    let mut slices = Slices::new(&limits);
    println!("{BEST}");
    println!(
        "times in us; a ratio below 1 is the port's call quicker than the Rust; [with its lines]"
    );
    println!(
        "{:22} {:>6} {:>9} | {:>9} {:>6} {:>8} {:>9} | {:>9} {:>8} {:>8} {:>9} {:>8} {:>8} | {:>6} {:>7}",
        "file",
        "bytes",
        "visits",
        "port",
        "clear",
        "read",
        "rest",
        "Rust",
        "read",
        "build",
        "check",
        "free",
        "lines",
        "ratio",
        "[lines]"
    );
    for (name, file) in all {
        let ran = judge::answer(file, &limits);
        let Answer::Lines(_) = ran.answer else {
            return Err(format!("{name} is not accepted: {:?}", ran.answer));
        };
        right(name, file, &ran.answer, &limits)?;
        let mut port = [Duration::MAX; 3];
        let mut rust: Option<Parts> = None;
        for _ in 0..rounds {
            port[0] = port[0].min(slices.check(file));
            port[1] = port[1].min(slices.check(b""));
            if linked::HAS_READ {
                port[2] = port[2].min(slices.read(file));
            }
            let parts = judge::timed(file, &limits);
            if rust.is_none_or(|best| parts.answered() < best.answered()) {
                rust = Some(parts);
            }
        }
        let [whole, clear, read] = port;
        let rust = rust.expect("one round at least");
        println!(
            "{name:22} {:6} {:9} | {:9.2} {:6.2} {:8.2} {:9.2} | {:9.2} {:8.2} {:8.2} {:9.2} {:8.2} {:8.2} | {:6.2} {:>7}",
            file.len(),
            ran.visits.iter().sum::<u64>(),
            micros(whole),
            micros(clear),
            micros(read),
            micros(whole.saturating_sub(clear).saturating_sub(read)),
            micros(rust.checked()),
            micros(rust.read),
            micros(rust.build),
            micros(rust.check),
            micros(rust.free),
            micros(rust.write),
            whole.as_secs_f64() / rust.checked().as_secs_f64(),
            format!(
                "[{:.2}]",
                whole.as_secs_f64() / rust.answered().as_secs_f64()
            ),
        );
    }
    Ok(true)
}

/// Whether the port's answer is the Rust's: a wrong one is not worth timing.
pub fn right(name: &str, file: &[u8], expected: &Answer, limits: &Limits) -> Result<(), String> {
    let (found, expected) = crate::port::Port::Library.ask(file, limits, expected)?;
    if found == expected {
        return Ok(());
    }
    let first = String::from_utf8_lossy(found.split(|byte| *byte == b'\n').next().unwrap_or(b""))
        .into_owned();
    Err(format!("{name}: the port's answer is another ({first})"))
}

/// Forms of so many queries: the means of five.
pub struct Formed {
    pub queries: usize,
    pub bytes: usize,
    pub port: Duration,
    pub rust: Duration,
    pub lines: Duration,
    /// The port's calls on files of one query each.
    pub alone: Duration,
}

/// A form beside the Rust that reads the schema once, and beside a call of the port for each query alone.
pub fn form_times(rounds: u32) -> Result<Vec<Formed>, String> {
    let limits = Limits::default();
    let mut slices = Slices::new(&limits);
    let mut all = vec![];
    for queries in [1, 2, 4, 8, 15, 30, 60, 64] {
        let mut sums = [Duration::ZERO; 4];
        let mut bytes = 0;
        for seed in 1..=5 {
            let file = files::form(queries, seed);
            let ran = judge::answer(&file, &limits);
            let Answer::Lines(lines) = &ran.answer else {
                return Err(format!(
                    "a form of {queries} is not accepted: {:?}",
                    ran.answer
                ));
            };
            right(&format!("a form of {queries}"), &file, &ran.answer, &limits)?;
            let alone: Vec<Vec<u8>> = match queries {
                1 => vec![file.clone()],
                _ => {
                    let parts = crate::compare::alone(&file, lines);
                    parts.into_iter().map(|(file, _)| file).collect()
                }
            };
            let mut best = [Duration::MAX; 4];
            for _ in 0..rounds {
                best[0] = best[0].min(slices.check(&file));
                let parts = judge::timed(&file, &limits);
                best[1] = best[1].min(parts.checked());
                best[2] = best[2].min(parts.answered());
                let each = alone.iter().map(|file| slices.check(file)).sum();
                best[3] = best[3].min(each);
            }
            bytes += file.len() / 5;
            for (sum, best) in sums.iter_mut().zip(best) {
                *sum += best / 5;
            }
        }
        let [port, rust, lines, alone] = sums;
        all.push(Formed { queries, bytes, port, rust, lines, alone });
    }
    Ok(all)
}

fn forms(rounds: u32) -> Done {
    println!("{BEST}");
    println!(
        "times in us: the port's call on a form, the Rust (one reading, one schema, a tree and a check for each query),"
    );
    println!("and the port's calls on files of one query each; ratios of the first to the others");
    println!(
        "{:>7} {:>6} {:>9} {:>9} {:>9} {:>9} | {:>6} {:>7} {:>6}",
        "queries", "bytes", "port", "Rust", "[lines]", "alone", "Rust", "[lines]", "alone"
    );
    for form in form_times(rounds)? {
        let [port, rust, lines, alone] = [form.port, form.rust, form.lines, form.alone].map(micros);
        println!(
            "{:7} {:6} {port:9.2} {rust:9.2} {lines:9.2} {alone:9.2} | {:6.2} {:>7} {:6.2}",
            form.queries,
            form.bytes,
            port / rust,
            format!("[{:.2}]", port / lines),
            port / alone
        );
    }
    Ok(true)
}
