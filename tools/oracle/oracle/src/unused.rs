//! `oracle compare unused`: whole answers with their lines 0c, beside the copy of the Rust with marks (card 9).

use judge::{Answer, Limits};

use crate::Done;
use crate::compare;
use crate::corpus::Corpus;
use crate::mismatch::Mismatches;
use crate::options::Options;
use crate::printed::printed;
use crate::tally::Progress;

/// The lines 0c of an answer.
fn unused(answer: &[u8]) -> impl Iterator<Item = &[u8]> {
    answer
        .split_inclusive(|byte| *byte == b'\n')
        .filter(|line| line.starts_with(b"0c"))
}

pub fn compare(options: &Options) -> Done {
    let ports = compare::ports(options)?;
    let corpus = Corpus::from(options)?;
    let mut mismatches = Mismatches::new(options.text("out"));
    let mut progress = Progress::new(corpus.count());
    let (mut accepted, mut with, mut lines, mut most, mut falling) = (0, 0, 0, 0, 0);
    let limits = Limits::default();
    for number in 0..corpus.count() {
        let item = corpus.item(number);
        let ran = judge::answer(&item.file, &limits);
        let Answer::Lines(answer) = &ran.answer else {
            continue;
        };
        accepted += 1;
        let own: Vec<&[u8]> = unused(answer).collect();
        with += u64::from(!own.is_empty());
        falling += u64::from(!own.is_sorted());
        lines += own.len();
        most = most.max(own.len());
        let expected = printed(&ran.answer)?;
        for port in &ports {
            let found = port.printed(&item.file, &limits)?;
            if found != expected {
                mismatches.keep(
                    &format!("unused-{}-{}", port.name(), item.name),
                    &[
                        ("file", &item.file),
                        ("expected", &expected),
                        ("found", &found),
                    ],
                )?;
            }
        }
        if mismatches.too_many() {
            break;
        }
        progress.at(number + 1, mismatches.count);
    }
    println!(
        "compare unused: {} files, {accepted} accepted, {with} with {lines} lines 0c, the most {most}, in {falling} they \
         do not ascend; {} mismatches",
        corpus.count(),
        mismatches.count
    );
    Ok(mismatches.count == 0)
}
