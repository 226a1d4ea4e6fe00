//! How soon the files tell each mistake from the right one.

use std::time::Instant;

use crate::{as_model, file, lent, nth};
use model::{Answer, MUTATIONS};

/// What a run came to.
#[derive(Debug, Default)]
pub struct Told {
    /// Mistakes that are wrong and were told apart.
    pub told: usize,
    /// Mistakes that are wrong.
    pub wrong: usize,
    /// Mistakes that are equal in behaviour.
    pub equal: usize,
    /// Wrong ones that no file told, and equal ones that a file told.
    pub surprises: Vec<&'static str>,
}

/// Where a mistake was told.
struct Tell {
    file: u64,
    style: &'static str,
    /// Whether the judge itself gave the right answer there; it leaves some files out.
    judged: bool,
}

/// Which slices and visits the files are run with.
#[derive(Clone, Copy, Debug, PartialEq, Eq)]
pub enum Lent {
    /// What the program lends, as a comparison with it has to.
    Usual,
    /// Others too, where they are telling.
    Varied,
}

/// Runs so many files through the right model and through each mistake not yet told.
pub fn mutants(seed: u64, count: u64, with: Lent) -> Told {
    let mut tells: Vec<Option<Tell>> = MUTATIONS.iter().map(|_| None).collect();
    let started = Instant::now();
    for n in 0..count {
        let (style, bytes) = file(seed, n);
        let plain = model::answer(&bytes, &model::Limits::default(), None);
        let mut all = lent(nth(seed, n), &plain);
        if with == Lent::Usual {
            all.truncate(1);
        }
        for limits in all {
            let lent = as_model(&limits);
            let right = model::answer(&bytes, &lent, None).answer;
            for (mutation, tell) in tells.iter_mut().enumerate() {
                let open = tell.as_ref().is_none_or(|tell| !tell.judged);
                if !open || model::answer(&bytes, &lent, Some(mutation)).answer == right {
                    continue;
                }
                let judged = agrees(&judge::answer(&bytes, &limits).answer, &right);
                if tell.is_none() || judged {
                    *tell = Some(Tell {
                        file: n,
                        style,
                        judged,
                    });
                }
            }
        }
        if (n + 1) % 20_000 == 0 {
            let open = tells.iter().filter(|tell| tell.is_none()).count();
            println!(
                "{} of {count} files, {open} not told, {:.0} s",
                n + 1,
                started.elapsed().as_secs_f64()
            );
        }
    }
    table(&tells)
}

fn agrees(judged: &judge::Answer, right: &Answer) -> bool {
    match (judged, right) {
        (judge::Answer::Lines(a), Answer::Lines(b)) => a == b,
        (judge::Answer::Refused(a), Answer::Refused(b)) => a == b,
        _ => false,
    }
}

fn table(tells: &[Option<Tell>]) -> Told {
    let mut told = Told::default();
    for (&(name, equal), tell) in MUTATIONS.iter().zip(tells) {
        let how = match tell {
            Some(tell) => {
                let sure = if tell.judged { "" } else { ", not confirmed" };
                format!("file {:6} {}{sure}", tell.file, tell.style)
            }
            None if equal => "equal in behaviour".to_owned(),
            None => "NOT TOLD".to_owned(),
        };
        println!("{name:64} {how}");
        // A tell that the judge never confirmed is none.
        let sure = tell.as_ref().is_some_and(|tell| tell.judged);
        if equal {
            told.equal += 1;
        } else {
            told.wrong += 1;
            told.told += sure as usize;
        }
        if equal == tell.is_some() || !equal && !sure {
            told.surprises.push(name);
        }
    }
    println!(
        "{} of {} wrong ones told apart, {} equal in behaviour",
        told.told, told.wrong, told.equal
    );
    told
}
