//! A small set of small files that tells the mistakes, for a recorded sample.

use crate::{file, shrink};
use model::{Limits, MUTATIONS};

/// How often a file is made smaller for one mistake.
const TRIES: usize = 3;

/// The mistakes that a file tells from the right one with the program's own slices.
pub fn told_by(file: &[u8]) -> Vec<usize> {
    let right = model::answer(file, &Limits::default(), None).answer;
    let tells =
        |&mutation: &usize| model::answer(file, &Limits::default(), Some(mutation)).answer != right;
    (0..MUTATIONS.len()).filter(tells).collect()
}

/// Files of at most `longest` bytes that tell what the `known` ones do not, each made smaller
/// for the first mistake that it was needed for, and taken from the first `count` files of a
/// seed; then the names of the mistakes that none tells, those that are equal in behaviour
/// left out.
pub fn telling(
    known: &[Vec<u8>],
    seed: u64,
    count: u64,
    longest: usize,
) -> (Vec<Vec<u8>>, Vec<&'static str>) {
    let mut open: Vec<usize> = (0..MUTATIONS.len())
        .filter(|&at| !MUTATIONS[at].1)
        .filter(|&at| !known.iter().any(|file| told_by_one(file, at)))
        .collect();
    let mut tries = vec![0; MUTATIONS.len()];
    let mut kept: Vec<Vec<u8>> = Vec::new();
    for n in 0..count {
        let (_, bytes) = file(seed, n);
        // Longer ones are there for a limit and cannot be made small.
        if bytes.len() > 4 * longest {
            continue;
        }
        for mutation in open.clone() {
            let wanted = open.contains(&mutation) && tries[mutation] < TRIES;
            if !wanted || !told_by_one(&bytes, mutation) {
                continue;
            }
            tries[mutation] += 1;
            let small = shrink(&bytes, &mut |bytes| told_by_one(bytes, mutation));
            if small.len() > longest || !judged(&small) {
                continue;
            }
            let told = told_by(&small);
            open.retain(|at| !told.contains(at));
            kept.push(small);
        }
        if open.is_empty() {
            break;
        }
    }
    (kept, open.into_iter().map(|at| MUTATIONS[at].0).collect())
}

fn told_by_one(file: &[u8], mutation: usize) -> bool {
    let limits = Limits::default();
    model::answer(file, &limits, Some(mutation)).answer != model::answer(file, &limits, None).answer
}

/// Whether the judge gives the file what the model gives it.
fn judged(file: &[u8]) -> bool {
    let judged = judge::answer(file, &judge::Limits::default()).answer;
    match (judged, model::answer(file, &Limits::default(), None).answer) {
        (judge::Answer::Lines(a), model::Answer::Lines(b)) => a == b,
        (judge::Answer::Refused(a), model::Answer::Refused(b)) => a == b,
        _ => false,
    }
}
