//! What a file is run with: the program's slices, and others where they are telling.

use judge::Limits;
use model::{Answer, Ran};

/// The slices and visits to run a file with, by what it gave with the program's own.
///
/// An answer is asked for again with a slice that it just fits, and one that it does
/// not; a count with a limit that it just meets, and one that it does not.
pub fn lent(seed: u64, plain: &Ran) -> Vec<Limits> {
    let usual = Limits::default();
    let mut all = vec![usual];
    if let Answer::Refused(1..=10 | 13) = plain.answer {
        if seed.is_multiple_of(16) || plain.answer == Answer::Refused(2) {
            all.push(Limits {
                words: 16_383,
                ..usual
            });
        }
        if seed % 16 == 1 {
            // No query runs before all lines are read.
            all.push(Limits { visits: 0, ..usual });
        }
        return all;
    }
    // Each query has its own visits.
    let visits = plain.visits.iter().copied().max().unwrap_or(0);
    match seed % 8 {
        0 => all.extend([16_383, 20_000].map(|words| Limits { words, ..usual })),
        1 | 2 => {
            if let Answer::Lines(lines) = &plain.answer {
                let length = lines.len();
                let short = seed as usize / 8 % length;
                all.extend([length, length - 1, short].map(|bytes| Limits { bytes, ..usual }));
            }
        }
        3..6 if visits > 0 && visits < usual.visits => {
            let fewer = seed / 8 % visits;
            all.extend([visits, visits - 1, fewer].map(|visits| Limits { visits, ..usual }));
            // Both do not suffice: 11 comes before 12.
            all.push(Limits {
                bytes: 8,
                visits: visits - 1,
                ..usual
            });
        }
        _ => {}
    }
    all
}
