//! `oracle compare`: the port beside the Rust.

use judge::{Answer, Limits, Ran};

use crate::Done;
use crate::calls;
use crate::convert;
use crate::corpus::{self, Corpus, Item};
use crate::desks;
use crate::growth;
use crate::inspect;
use crate::lamp;
use crate::mismatch::Mismatches;
use crate::names;
use crate::options::Options;
use crate::port::Port;
use crate::tally::{Progress, Tally};
use crate::texts;
use crate::unused;
use crate::visits;

/// The most files tried to make one that shows a mismatch smaller.
const TRIES: usize = 20_000;

/// A smaller file that still differs, as far as the tries go.
pub fn shrink(file: &[u8], differs: impl Fn(&[u8]) -> bool) -> Vec<u8> {
    let mut tries = 0;
    trial::shrink(file, &mut |smaller| {
        tries += 1;
        tries <= TRIES && differs(smaller)
    })
}

pub fn run(given: &[String]) -> Done {
    let mut known = corpus::OPTIONS.to_vec();
    known.extend([
        "program", "out", "widen", "narrow", "recorded", "days", "events", "growth",
    ]);
    let [short, nested] = corpus::FLAGS;
    let options = Options::parse(given, &known, &["model", short, nested])?;
    match &options.words[..] {
        [what] if what == "answers" => answers(&options),
        [what] if what == "reading" => reading(&options),
        [what] if what == "calls" => calls::run(&options),
        [what] if what == "convert" => convert::compare(&options),
        [what] if what == "days" => desks::compare_days(&options),
        [what] if what == "growth" => growth::compare(&options),
        [what] if what == "inspect" => inspect::compare(&options),
        [what] if what == "names" => names::compare(&options),
        [what] if what == "lamp" => lamp::compare(&options),
        [what] if what == "tally" => desks::compare_tally(&options),
        [what] if what == "texts" => texts::compare(),
        [what] if what == "unused" => unused::compare(&options),
        [what] if what == "visits" => visits::compare(&options),
        _ => Err(
            "compare what? one of answers, reading, calls, convert, days, growth, inspect, lamp, names, tally, texts, unused, visits"
                .to_owned(),
        ),
    }
}

/// The ports that are there.
pub fn ports(options: &Options) -> Result<Vec<Port>, String> {
    let mut ports = vec![];
    if let Some(program) = options.text("program") {
        let command: Vec<String> = program.split_whitespace().map(str::to_owned).collect();
        if command.is_empty() {
            return Err("--program names none".to_owned());
        }
        ports.push(Port::Program(command));
    }
    if options.flag("model") {
        ports.push(Port::Model);
    }
    if linked::HAS_CHECK {
        ports.push(Port::Library);
    }
    if ports.is_empty() {
        return Err(format!(
            "nothing to compare with: {NO_LIBRARY}, no --program and no --model"
        ));
    }
    if !linked::HAS_CHECK {
        eprintln!("{NO_LIBRARY}, so it is not compared");
    }
    Ok(ports)
}

pub const NO_LIBRARY: &str = "the static library was not there when oracle was built \
    (SIGLA_LIB, or target/staticlib/libsigla_lib.a at the repository's top)";

/// Whole answers: lines, refusals, and what the slices hold afterwards.
fn answers(options: &Options) -> Done {
    let ports = ports(options)?;
    let corpus = Corpus::from(options)?;
    let mut mismatches = Mismatches::new(options.text("out"));
    let mut tally = Tally::default();
    let mut progress = Progress::new(corpus.count());
    let mut asked = 0;
    let mut alone = 0;

    for number in 0..corpus.count() {
        let item = corpus.item(number);
        let limits = Limits::default();
        let ran = judge::answer(&item.file, &limits);
        tally.add(&ran, judge::read(&item.file, &limits).ok().as_ref());
        if matches!(ran.answer, Answer::LeftOut(_)) {
            continue;
        }
        // Slices of other lengths, a different pair for each file.
        let other = other_limits(&ran, number);
        let elsewhere = judge::answer(&item.file, &other).answer;
        for port in &ports {
            asked += 1;
            compare(port, &item, &limits, &ran.answer, &mut mismatches)?;
            if !matches!(port, Port::Program(_)) {
                asked += 1;
                compare(port, &item, &other, &elsewhere, &mut mismatches)?;
            }
        }
        alone += each_alone(&ports, &item, &ran, &mut mismatches)?;
        if mismatches.too_many() {
            println!("stopped after {} mismatches", mismatches.count);
            break;
        }
        progress.at(number + 1, mismatches.count);
    }
    tally.print();
    println!(
        "compare answers: {} files, {} left out, {asked} comparisons, {alone} of a query's lines with the \
         answer to it alone, {} mismatches",
        tally.files,
        tally.left_out(),
        mismatches.count
    );
    Ok(mismatches.count == 0)
}

/// Of an accepted form, each query's lines beside what the ports answer to the file of the lines 01 to 04
/// and that query's own. Tells how many were compared.
fn each_alone(
    ports: &[Port],
    item: &Item,
    ran: &Ran,
    mismatches: &mut Mismatches,
) -> Result<u64, String> {
    let Answer::Lines(answer) = &ran.answer else {
        return Ok(0);
    };
    if !answer.starts_with(b"0b") {
        return Ok(0);
    }
    let mut compared = 0;
    let limits = Limits::default();
    for (query, (file, lines)) in alone(&item.file, answer).into_iter().enumerate() {
        let expected = Answer::Lines(lines);
        for port in ports {
            compared += 1;
            let (found, expected) = port.ask(&file, &limits, &expected)?;
            if found != expected {
                mismatches.keep(
                    &format!("{}-{}-query-{query}", port.name(), item.name),
                    &[
                        ("file", &item.file),
                        ("alone", &file),
                        ("expected", &expected),
                        ("found", &found),
                    ],
                )?;
            }
        }
    }
    Ok(compared)
}

/// For each query of a form the file with it alone, cut from the form's own lines, and the lines of the
/// answer that stand between its 0b line and the next.
pub fn alone(form: &[u8], answer: &[u8]) -> Vec<(Vec<u8>, Vec<u8>)> {
    let mut schema = vec![];
    let mut files = vec![];
    let mut own = vec![];
    for line in form.split_inclusive(|byte| *byte == b'\n') {
        match &line[..2] {
            b"05" => own.extend_from_slice(line),
            b"06" => {
                own.extend_from_slice(line);
                files.push([&schema[..], &std::mem::take(&mut own)].concat());
            }
            _ => schema.extend_from_slice(line),
        }
    }
    let mut parts: Vec<Vec<u8>> = vec![];
    for line in answer.split_inclusive(|byte| *byte == b'\n') {
        if line.starts_with(b"0b") {
            parts.push(vec![]);
        } else {
            let part = parts.last_mut().expect("a form's answer begins with 0b");
            part.extend_from_slice(line);
        }
    }
    assert_eq!(files.len(), parts.len(), "a 0b line for each query");
    files.into_iter().zip(parts).collect()
}

/// Lengths around each boundary, and the answer's own.
fn other_limits(ran: &Ran, number: u64) -> Limits {
    let length = match &ran.answer {
        Answer::Lines(lines) => lines.len(),
        _ => 65_536,
    };
    let some = (number.wrapping_mul(0x9e37_79b9_7f4a_7c15) >> 33) as usize;
    let (words, bytes) = match number % 10 {
        0 => (16_384, length),
        1 => (16_384, length.saturating_sub(1)),
        2 => (16_385, length + 1),
        3 => (20_000, 0),
        4 => (16_383, 65_536),
        5 => (0, 0),
        6 => (16_384, some % (length + 1)),
        7 => (some % 16_384, length),
        8 => (20_000, 70_000),
        _ => (16_384, length.saturating_sub(2)),
    };
    Limits {
        words,
        bytes,
        ..Limits::default()
    }
}

/// Holds one port against the Rust's answer to one file, and keeps what differs, made smaller.
fn compare(
    port: &Port,
    item: &Item,
    limits: &Limits,
    answer: &Answer,
    mismatches: &mut Mismatches,
) -> Result<(), String> {
    let (found, expected) = port.ask(&item.file, limits, answer)?;
    if found == expected {
        return Ok(());
    }
    let ask = |file: &[u8]| {
        let expected = judge::answer(file, limits).answer;
        port.ask(file, limits, &expected)
    };
    let small = shrink(&item.file, |file| match ask(file) {
        Ok((found, expected)) => found != expected,
        // A file that the Rust can't hold shows no difference.
        Err(_) => false,
    });
    let (small_found, small_expected) = ask(&small)?;
    let lent = format!("{} words, {} bytes\n", limits.words, limits.bytes);
    mismatches.keep(
        &format!(
            "{}-{}-{}-{}",
            port.name(),
            item.name,
            limits.words,
            limits.bytes
        ),
        &[
            ("lent", lent.as_bytes()),
            ("file", &item.file),
            ("expected", &expected),
            ("found", &found),
            ("small-file", &small),
            ("small-expected", &small_expected),
            ("small-found", &small_found),
        ],
    )
}

/// The reading alone: refusals 1 to 10 and 13, or none.
fn reading(options: &Options) -> Done {
    if !linked::HAS_READ {
        return Err("nothing to compare the reading with: libreading_calls.a was not there when oracle was \
            built (READING_LIB, or target/staticlib at the repository's top)"
            .to_owned());
    }
    let corpus = Corpus::from(options)?;
    let mut mismatches = Mismatches::new(options.text("out"));
    let mut tally = Tally::default();
    let mut progress = Progress::new(corpus.count());

    for number in 0..corpus.count() {
        let item = corpus.item(number);
        let words = [16_384, 16_384, 20_000, 16_383][(number % 4) as usize];
        let differs = |file: &[u8]| {
            let (found, expected) = read_both(file, words);
            (found != expected).then_some((found, expected))
        };
        let limits = Limits {
            words,
            ..Limits::default()
        };
        let read = judge::read(&item.file, &limits);
        let answer = match &read {
            Ok(_) => Answer::Lines(vec![]),
            Err(number) => Answer::Refused(*number),
        };
        let ran = Ran {
            answer,
            visits: vec![],
            codes: vec![],
            texts: vec![],
        };
        tally.add(&ran, read.ok().as_ref());
        if let Some((found, expected)) = differs(&item.file) {
            let small = shrink(&item.file, |file| differs(file).is_some());
            mismatches.keep(
                &format!("reading-{}", item.name),
                &[
                    ("file", &item.file),
                    ("expected", expected.as_bytes()),
                    ("found", found.as_bytes()),
                    ("small-file", &small),
                ],
            )?;
        }
        if mismatches.too_many() {
            break;
        }
        progress.at(number + 1, mismatches.count);
    }
    tally.print();
    println!(
        "compare reading: {} files, {} mismatches",
        tally.files, mismatches.count
    );
    Ok(mismatches.count == 0)
}

/// What the port and the first reader say of a file. A refusal leaves the work slice zero.
fn read_both(file: &[u8], words: usize) -> (String, String) {
    let limits = Limits {
        words,
        ..Limits::default()
    };
    let expected = judge::read(file, &limits).err().unwrap_or(0);
    let mut work = vec![u32::MAX; words];
    let found = linked::read(file, &mut work);
    let clean = found == 0 || work.iter().all(|word| *word == 0);
    (
        format!("outcome {found}, work zero where refused: {clean}\n"),
        format!("outcome {expected}, work zero where refused: true\n"),
    )
}
