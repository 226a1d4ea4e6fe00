//! `oracle record`: a sample of the answers, stored so that a small program can replay it.
//!
//! One flat file. Each case is the file's length (4 bytes, big-endian), the file, the length of what
//! is printed (4 bytes), and what is printed: the answer's lines, or the line 0f and number.

use std::collections::BTreeSet;
use std::fs;

use judge::Limits;

use crate::Done;
use crate::options::Options;
use crate::printed::printed;
use crate::selftest;
use crate::tally::Tally;

const STORED: &str = concat!(env!("CARGO_MANIFEST_DIR"), "/../../../crates/replay/stdin");

/// Seed and count of the files that those which tell a mistake are taken from.
const TELLING: (u64, u64) = (1, 20_000);
/// Cases of each style, from the seeds 0 on.
const EACH: u64 = 43;
/// Seeds tried for them.
const TRIES: u64 = 400;
/// A case's file and answer are shorter than these, and the whole sample than that. Only the files
/// at the limits of reading need the first.
const LIMIT_FILE_BYTES: usize = 2048;
const FILE_BYTES: usize = 1024;
const ANSWER_BYTES: usize = 2048;
const SAMPLE_BYTES: usize = 1_500_000;

pub fn run(given: &[String]) -> Done {
    let options = Options::parse(given, &["to"], &["check"])?;
    let path = options.text("to").unwrap_or(STORED);
    let (Sample { bytes, tally, .. }, by_style) = sample();
    if bytes.len() > SAMPLE_BYTES {
        return Err(format!("the sample has {} bytes, too many", bytes.len()));
    }
    if !options.flag("check") {
        fs::write(path, &bytes).map_err(|why| format!("{path}: {why}"))?;
        println!("cases by style: {}", by_style.join(", "));
        tally.print();
        println!("record: {} cases, {} bytes", tally.files, bytes.len());
        return Ok(true);
    }

    let stored = fs::read(path).map_err(|why| format!("{path}: {why}"))?;
    let (stored_cases, differing) = replay(&stored)?;
    let same = stored == bytes;
    println!(
        "record --check: {stored_cases} cases, {differing} answered otherwise, {}",
        if same {
            "made again byte for byte"
        } else {
            "NOT what is made now"
        }
    );
    Ok(same && differing == 0)
}

/// The sample and how many cases of each sort it has: files of the self-test, files that each tell a
/// mistake of the list, then each style's.
fn sample() -> (Sample, Vec<String>) {
    let mut sample = Sample::default();
    for file in selftest::files() {
        sample.add(&file, LIMIT_FILE_BYTES);
    }
    let known: Vec<Vec<u8>> = sample.seen.iter().cloned().collect();
    let mut by_style = vec![format!("self-test {}", sample.tally.files)];
    let (telling, open) = trial::telling(&known, TELLING.0, TELLING.1, FILE_BYTES - 1);
    for file in &telling {
        sample.add(file, FILE_BYTES);
    }
    by_style.push(format!("telling {} (but not {open:?})", telling.len()));
    for style in files::STYLES {
        let before = sample.tally.files;
        for seed in 0..TRIES {
            sample.add(&files::generate(style, seed), FILE_BYTES);
            if sample.tally.files - before == EACH {
                break;
            }
        }
        by_style.push(format!("{style} {}", sample.tally.files - before));
    }
    (sample, by_style)
}

#[derive(Default)]
struct Sample {
    bytes: Vec<u8>,
    tally: Tally,
    seen: BTreeSet<Vec<u8>>,
}

impl Sample {
    /// Adds a file that is small, new and not left out.
    fn add(&mut self, file: &[u8], bytes: usize) {
        if file.len() >= bytes || self.seen.contains(file) {
            return;
        }
        let limits = Limits::default();
        let ran = judge::answer(file, &limits);
        let Ok(answer) = printed(&ran.answer) else {
            return;
        };
        if answer.len() >= ANSWER_BYTES {
            return;
        }
        for part in [file, &answer] {
            let length = part.len() as u32;
            self.bytes.extend_from_slice(&length.to_be_bytes());
            self.bytes.extend_from_slice(part);
        }
        self.tally
            .add(&ran, judge::read(file, &limits).ok().as_ref());
        self.seen.insert(file.to_vec());
    }
}

/// The cases of a stored sample, and how many the Rust answers otherwise now.
fn replay(stored: &[u8]) -> Result<(usize, usize), String> {
    let cases = cases(stored)?;
    let differs = |(file, answer): &&(&[u8], &[u8])| {
        let now = printed(&judge::answer(file, &Limits::default()).answer);
        now.as_deref() != Ok(*answer)
    };
    Ok((cases.len(), cases.iter().filter(differs).count()))
}

/// The cases of a stored sample, each a file and what is printed for it.
pub fn cases(mut stored: &[u8]) -> Result<Vec<(&[u8], &[u8])>, String> {
    let mut part = || {
        let (length, rest) = stored.split_first_chunk::<4>()?;
        let (part, rest) = rest.split_at_checked(u32::from_be_bytes(*length) as usize)?;
        stored = rest;
        Some((part, rest.is_empty()))
    };
    let mut cases = vec![];
    loop {
        let cut = "the sample is cut off";
        let (file, _) = part().ok_or(cut)?;
        let (answer, last) = part().ok_or(cut)?;
        cases.push((file, answer));
        if last {
            return Ok(cases);
        }
    }
}
