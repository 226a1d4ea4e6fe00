//! `oracle compare names`: the same file with other names (card 10).

use files::Rng;
use judge::{Answer, File, Limits, Shape};

use crate::Done;
use crate::compare;
use crate::corpus::Corpus;
use crate::mismatch::Mismatches;
use crate::options::Options;
use crate::port::Port;
use crate::tally::Progress;

const VALUE: &[u8] = b"value";

/// A text of so many characters, of one to four bytes each.
fn text(rng: &mut Rng, characters: usize) -> Vec<u8> {
    let drawn = (0..characters).map(|_| {
        rng.pick(&[
            'a', 'k', 'z', '0', ' ', 'é', 'ß', 'я', '中', '한', '😀', '🖋',
        ])
    });
    drawn.collect::<String>().into_bytes()
}

fn characters(text: &[u8]) -> usize {
    String::from_utf8_lossy(text).chars().count()
}

/// The names of fuzzy terms.
fn terms(file: &File) -> Vec<bool> {
    let mut terms = vec![false; file.names.len()];
    for node in file.trees.iter().flat_map(|tree| &tree.nodes) {
        if let Shape::Fuzzy(name, _) = node.shape {
            terms[usize::from(name)] = true;
        }
    }
    terms
}

/// Other texts for all names: `value` stays and comes in nowhere, a fuzzy term keeps its number of characters. None
/// where a term has no other text.
fn renamed(rng: &mut Rng, file: &File) -> Option<File> {
    let terms = terms(file);
    let mut names: Vec<Vec<u8>> = vec![];
    for (name, old) in file.names.iter().enumerate() {
        let mut fresh = old.clone();
        let mut tries = 0;
        while old != VALUE && (fresh == *old || fresh == VALUE || names.contains(&fresh)) {
            let many = if terms[name] {
                characters(old)
            } else {
                rng.between(1, 9)
            };
            fresh = text(rng, many);
            tries += 1;
            if tries > 30 {
                return None;
            }
        }
        if fresh.len() > 511 || names.contains(&fresh) {
            return None;
        }
        names.push(fresh);
    }
    Some(File {
        names,
        ..file.clone()
    })
}

/// One premise left out: `value` is called otherwise, or a term has one character more.
fn spoilt(rng: &mut Rng, file: &File) -> Option<(usize, File)> {
    let mut other = renamed(rng, file)?;
    let value = file.names.iter().position(|name| name == VALUE);
    let places: Vec<usize> = (0..file.names.len())
        .filter(|name| terms(file)[*name])
        .collect();
    let (premise, place) = match value {
        Some(place) if places.is_empty() || rng.chance(50) => (0, place),
        _ if places.is_empty() => return None,
        _ => (1, rng.pick(&places)),
    };
    let many = characters(&file.names[place]);
    let fresh = text(rng, many + premise);
    if fresh.len() > 511 || other.names.contains(&fresh) {
        return None;
    }
    other.names[place] = fresh;
    Some((premise, other))
}

/// The lines of an answer but for message lines.
fn beside(answer: &[u8]) -> Vec<&[u8]> {
    let lines = answer.split_inclusive(|byte| *byte == b'\n');
    lines.filter(|line| !line.starts_with(b"0a")).collect()
}

pub fn compare(options: &Options) -> Done {
    let ports = compare::ports(options)?;
    let corpus = Corpus::from(options)?;
    let mut mismatches = Mismatches::new(options.text("out"));
    let mut progress = Progress::new(corpus.count());
    let usual = Limits::default();
    // An answer slice that is large enough for both.
    let large = Limits {
        bytes: 1 << 18,
        ..Limits::default()
    };
    let (mut pairs, mut told, mut fuzzy, mut value) = (0_u64, 0_u64, 0_u64, 0_u64);
    let mut lacking = [(0_u64, 0_u64); 2];
    for number in 0..corpus.count() {
        let item = corpus.item(number);
        let Ok(file) = judge::read(&item.file, &usual) else {
            continue;
        };
        let rng = &mut Rng::new(number ^ 0x6e61_6d65);
        let Some(other) = renamed(rng, &file) else {
            continue;
        };
        let new = judge::encode(&other);
        if judge::read(&new, &usual).as_ref() != Ok(&other) {
            continue;
        }
        pairs += 1;
        fuzzy += u64::from(terms(&file).contains(&true));
        value += u64::from(file.names.iter().any(|name| name == VALUE));
        for port in &ports {
            let limits = if matches!(port, Port::Library) {
                &large
            } else {
                &usual
            };
            let (before, after) = (
                port.printed(&item.file, limits)?,
                port.printed(&new, limits)?,
            );
            if [&before, &after]
                .iter()
                .any(|lines| lines.starts_with(b"0f0c"))
            {
                continue;
            }
            told += u64::from(before != after);
            if beside(&before) != beside(&after) {
                let parts: [(&str, &[u8]); 4] = [
                    ("old", &item.file),
                    ("new", &new),
                    ("before", &before),
                    ("after", &after),
                ];
                mismatches.keep(&format!("names-{}-{}", port.name(), item.name), &parts)?;
            }
            if let Some((premise, spoilt)) = spoilt(rng, &file) {
                let spoilt = port.printed(&judge::encode(&spoilt), limits)?;
                lacking[premise].0 += 1;
                lacking[premise].1 += u64::from(beside(&before) != beside(&spoilt));
            }
        }
        if let (Answer::Lines(before), Answer::Lines(after)) = (
            judge::answer(&item.file, &usual).answer,
            judge::answer(&new, &usual).answer,
        ) && beside(&before) != beside(&after)
        {
            let parts: [(&str, &[u8]); 2] = [("old", &item.file), ("new", &new)];
            mismatches.keep(&format!("names-rust-{}", item.name), &parts)?;
        }
        if mismatches.too_many() {
            break;
        }
        progress.at(number + 1, mismatches.count);
    }
    let [(values, moved), (terms, longer)] = lacking;
    println!(
        "  with a fuzzy term {fuzzy}, with the name `value` {value}; other lines without a premise: `value` renamed {moved} of \
         {values}, a longer term {longer} of {terms}"
    );
    println!(
        "compare names: {} files, {pairs} renamed, {told} with other messages; {} mismatches",
        corpus.count(),
        mismatches.count
    );
    Ok(mismatches.count == 0)
}
