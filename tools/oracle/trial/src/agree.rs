//! Whether judge and model give the same answers, refusals and visits.

use std::collections::BTreeMap;
use std::fs;
use std::path::Path;

use crate::{as_model, file, lent, nth, shrink};
use judge::Limits;

/// What a run came to.
#[derive(Debug, Default)]
pub struct Agreed {
    pub files: u64,
    /// Runs of judge and model, some files having several.
    pub runs: u64,
    /// Runs that the Rust can't hold.
    pub left_out: u64,
    pub mismatches: u64,
    /// Files by what became of them: a refusal's number, `accepted`, or why left out.
    pub outcomes: BTreeMap<String, u64>,
    /// Diagnostics by code.
    pub codes: BTreeMap<String, u64>,
    /// Messages by text, and answers as long as the program's slice that end in one.
    pub texts: BTreeMap<&'static str, u64>,
    pub full: u64,
}

/// Runs so many files through both; each mismatch is made smaller and saved.
pub fn agree(seed: u64, count: u64, save: &Path) -> Agreed {
    let mut agreed = Agreed::default();
    for n in 0..count {
        let (style, bytes) = file(seed, n);
        let plain = model::answer(&bytes, &model::Limits::default(), None);
        for (turn, limits) in lent(nth(seed, n), &plain).iter().enumerate() {
            let judged = judge::answer(&bytes, limits);
            agreed.runs += 1;
            if turn == 0 {
                agreed.files += 1;
                *agreed.outcomes.entry(outcome(&judged.answer)).or_default() += 1;
                for code in &judged.codes {
                    *agreed.codes.entry((*code).to_owned()).or_default() += 1;
                }
                for text in &judged.texts {
                    *agreed.texts.entry(text).or_default() += 1;
                }
                agreed.full += u64::from(full(&judged.answer));
            }
            if matches!(judged.answer, judge::Answer::LeftOut(_)) {
                agreed.left_out += 1;
                continue;
            }
            if same(&judged, &model::answer(&bytes, &as_model(limits), None)) {
                continue;
            }
            agreed.mismatches += 1;
            if agreed.mismatches <= 20 {
                report(style, &bytes, limits, save, agreed.mismatches);
            }
        }
        if (n + 1) % 20_000 == 0 {
            println!(
                "{} of {count} files, {} mismatches",
                n + 1,
                agreed.mismatches
            );
        }
    }
    agreed
}

/// Whether an answer just fits the program's slice and its last line but that of the visits is a message.
pub fn full(answer: &judge::Answer) -> bool {
    let judge::Answer::Lines(lines) = answer else {
        return false;
    };
    lines.len() == Limits::default().bytes && ends_in_a_message(lines)
}

/// Whether the last line but that of the visits is a message.
pub fn ends_in_a_message(lines: &[u8]) -> bool {
    let last = lines.split_inclusive(|byte| *byte == b'\n').nth_back(1);
    last.is_some_and(|line| line.starts_with(b"0a"))
}

fn outcome(answer: &judge::Answer) -> String {
    match answer {
        judge::Answer::Lines(_) => "accepted".to_owned(),
        judge::Answer::Refused(number) => format!("refused {number:2}"),
        judge::Answer::LeftOut(why) => format!("left out: {why}"),
    }
}

fn same(judged: &judge::Ran, modelled: &model::Ran) -> bool {
    let alike = match (&judged.answer, &modelled.answer) {
        (judge::Answer::Lines(a), model::Answer::Lines(b)) => a == b,
        (judge::Answer::Refused(a), model::Answer::Refused(b)) => a == b,
        _ => false,
    };
    alike && judged.visits == modelled.visits
}

fn differ(bytes: &[u8], limits: &Limits) -> bool {
    let judged = judge::answer(bytes, limits);
    !matches!(judged.answer, judge::Answer::LeftOut(_))
        && !same(&judged, &model::answer(bytes, &as_model(limits), None))
}

/// Says what differs in the smallest file found, and saves it.
fn report(style: &str, bytes: &[u8], limits: &Limits, save: &Path, number: u64) {
    let small = shrink(bytes, &mut |bytes| differ(bytes, limits));
    let judged = judge::answer(&small, limits);
    let modelled = model::answer(&small, &as_model(limits), None);
    println!("mismatch {number}, style {style}, {limits:?}");
    println!("{}", String::from_utf8_lossy(&small));
    println!(
        "judge: {}, {:?} visits",
        judged_text(&judged),
        judged.visits
    );
    println!(
        "model: {}, {:?} visits",
        modelled_text(&modelled),
        modelled.visits
    );
    let path = save.join(format!("mismatch-{number}.txt"));
    if let Err(why) = fs::create_dir_all(save).and_then(|()| fs::write(&path, &small)) {
        println!("{} could not be saved: {why}", path.display());
    }
}

fn judged_text(ran: &judge::Ran) -> String {
    match &ran.answer {
        judge::Answer::Lines(lines) => String::from_utf8_lossy(lines).into_owned(),
        other => format!("{other:?}"),
    }
}

fn modelled_text(ran: &model::Ran) -> String {
    match &ran.answer {
        model::Answer::Lines(lines) => String::from_utf8_lossy(lines).into_owned(),
        other => format!("{other:?}"),
    }
}
