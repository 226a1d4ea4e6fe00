//! `oracle compare visits`: the lines 09 beside the counted copy of the Rust (card 7).

use judge::{Answer, Limits};

use crate::Done;
use crate::compare;
use crate::corpus::Corpus;
use crate::mismatch::Mismatches;
use crate::options::Options;
use crate::tally::Progress;

/// For each query the visits that its last line tells; none where one lacks the line, or has another 09.
fn told(answer: &[u8]) -> Option<Vec<u64>> {
    let lines: Vec<&[u8]> = answer.split_inclusive(|byte| *byte == b'\n').collect();
    let mut told = vec![];
    for (at, line) in lines.iter().enumerate() {
        // The last line of a query is the answer's last, or stands before a 0b.
        let last = lines.get(at + 1).is_none_or(|next| next.starts_with(b"0b"));
        if last != line.starts_with(b"09") {
            return None;
        }
        if last {
            let digits = line.strip_suffix(b"\n")?.strip_prefix(b"09")?;
            if digits.len() != 8 {
                return None;
            }
            told.push(u64::from_str_radix(std::str::from_utf8(digits).ok()?, 16).ok()?);
        }
    }
    Some(told)
}

pub fn compare(options: &Options) -> Done {
    let ports = compare::ports(options)?;
    let corpus = Corpus::from(options)?;
    let mut mismatches = Mismatches::new(options.text("out"));
    let mut progress = Progress::new(corpus.count());
    let (mut accepted, mut queries, mut visits, mut most) = (0, 0, 0_u64, 0);
    let limits = Limits::default();
    for number in 0..corpus.count() {
        let item = corpus.item(number);
        let ran = judge::answer(&item.file, &limits);
        let Answer::Lines(_) = ran.answer else {
            continue;
        };
        accepted += 1;
        queries += ran.visits.len() as u64;
        visits += ran.visits.iter().sum::<u64>();
        most = most.max(ran.visits.iter().copied().max().unwrap_or(0));
        for port in &ports {
            let found = told(&port.printed(&item.file, &limits)?);
            if found.as_ref() != Some(&ran.visits) {
                mismatches.keep(
                    &format!("visits-{}-{}", port.name(), item.name),
                    &[
                        ("file", &item.file),
                        ("expected", format!("{:?}\n", ran.visits).as_bytes()),
                        ("found", format!("{found:?}\n").as_bytes()),
                    ],
                )?;
            }
        }
        if mismatches.too_many() {
            break;
        }
        progress.at(number + 1, mismatches.count);
    }
    println!(
        "compare visits: {} files, {accepted} accepted, {queries} queries with {visits} visits, the most {most}; {} \
         mismatches",
        corpus.count(),
        mismatches.count
    );
    Ok(mismatches.count == 0)
}
