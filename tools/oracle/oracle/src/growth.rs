//! `oracle compare growth`: card 14's number beside the card's sentences, and the answers of both files where it is 00.

use std::collections::BTreeMap;
use std::fs;
use std::process::Command;

use files::Rng;
use judge::{Answer, File, Limits, Predicate, Shape, Type};

use crate::Done;
use crate::compare;
use crate::corpus::Corpus;
use crate::mismatch::Mismatches;
use crate::options::Options;
use crate::tally::Progress;

/// The first premise that fails, by the judge's reading of both files.
fn premise(old: &[u8], new: &[u8], limits: &Limits) -> u8 {
    let Ok(old) = judge::read(old, limits) else {
        return 1;
    };
    let Ok(new) = judge::read(new, limits) else {
        return 2;
    };
    if !only_added(&old, &new) {
        return 3;
    }
    let absent = |number: u32| number as usize >= old.predicates.len();
    4 * u8::from(judge::references(&old).any(absent))
}

fn only_added(old: &File, new: &File) -> bool {
    (old.max_distance, old.max_term, &old.trees) == (new.max_distance, new.max_term, &new.trees)
        && new.names.starts_with(&old.names)
        && new.types.starts_with(&old.types)
        && new.predicates.starts_with(&old.predicates)
}

// ---- Pairs

/// A text that the file has not given.
fn fresh(rng: &mut Rng, file: &File) -> Vec<u8> {
    loop {
        let text: Vec<u8> = (0..rng.between(1, 6))
            .map(|_| rng.pick(b"abcxyz\xc3"))
            .collect();
        let text = String::from_utf8_lossy(&text).into_owned().into_bytes();
        if !file.names.contains(&text) {
            return text;
        }
    }
}

fn reference(rng: &mut Rng, length: usize) -> u16 {
    rng.below(length) as u16
}

fn more_types(rng: &mut Rng, file: &mut File) {
    let (names, types) = (file.names.len(), file.types.len());
    let known = names > 0 && types > 0;
    file.types.push(match rng.below(5) {
        0 => Type::Int,
        1 => Type::String,
        2 => Type::Fact(rng.below(file.predicates.len() + 3) as u32),
        3 if known => Type::Record(vec![(reference(rng, names), reference(rng, types))]),
        4 if known => Type::Union(vec![(
            reference(rng, names),
            rng.next() as u32,
            reference(rng, types),
        )]),
        _ => Type::Bytes,
    });
}

fn more_predicates(rng: &mut Rng, file: &mut File) {
    if file.names.is_empty() || file.types.is_empty() {
        return;
    }
    let types = file.types.len();
    file.predicates.push(Predicate {
        name: reference(rng, file.names.len()),
        key: reference(rng, types),
        value: rng.chance(50).then(|| reference(rng, types)),
    });
}

/// Names, types and predicates after the old ones.
fn grow(rng: &mut Rng, file: &mut File) {
    for _ in 0..rng.below(4) {
        let text = fresh(rng, file);
        file.names.push(text);
    }
    for _ in 0..rng.below(4) {
        more_types(rng, file);
    }
    for _ in 0..rng.below(4) {
        more_predicates(rng, file);
    }
}

/// The name `value`, a record with that field and a predicate keyed by it.
fn shadow(rng: &mut Rng, file: &mut File) {
    let value = b"value".to_vec();
    if file.names.contains(&value) {
        return grow(rng, file);
    }
    file.names.push(value);
    let name = (file.names.len() - 1) as u16;
    file.types.push(Type::Int);
    let int = (file.types.len() - 1) as u16;
    file.types.push(Type::Record(vec![(name, int)]));
    let (key, value) = (int + 1, rng.chance(50).then_some(int));
    for _ in 0..rng.between(1, 3) {
        file.predicates.push(Predicate { name, key, value });
    }
}

/// Moves what was added last before some old one of its kind.
fn move_up<T>(rng: &mut Rng, of: &mut [T]) {
    if !of.is_empty() {
        let place = rng.below(of.len());
        of[place..].rotate_right(1);
    }
}

fn name_in_front(rng: &mut Rng, file: &mut File) {
    let text = fresh(rng, file);
    file.names.push(text);
    move_up(rng, &mut file.names);
}

fn type_in_front(rng: &mut Rng, file: &mut File) {
    file.types.push(Type::Bytes);
    move_up(rng, &mut file.types);
}

fn predicate_in_front(rng: &mut Rng, file: &mut File) {
    more_predicates(rng, file);
    move_up(rng, &mut file.predicates);
}

fn name_changed(rng: &mut Rng, file: &mut File) {
    let text = fresh(rng, file);
    if let Some(place) = rng.below(file.names.len() + 1).checked_sub(1) {
        file.names[place] = text;
    }
}

fn name_dropped(_: &mut Rng, file: &mut File) {
    file.names.pop();
}

fn limits_changed(rng: &mut Rng, file: &mut File) {
    if rng.chance(50) {
        file.max_distance = file.max_distance.wrapping_add(1);
    } else {
        file.max_term = file.max_term.wrapping_add(1);
    }
}

fn node_changed(rng: &mut Rng, file: &mut File) {
    let tree = rng.below(file.trees.len());
    let nodes = &mut file.trees[tree].nodes;
    if let Some(place) = rng.below(nodes.len() + 1).checked_sub(1) {
        let node = &mut nodes[place];
        match node.shape {
            Shape::Int => node.shape = Shape::String,
            _ => node.end = node.end.wrapping_add(1),
        }
    }
}

fn query_added(rng: &mut Rng, file: &mut File) {
    let again = file.trees[rng.below(file.trees.len())].clone();
    file.trees.push(again);
}

fn query_dropped(_: &mut Rng, file: &mut File) {
    if file.trees.len() > 1 {
        file.trees.pop();
    } else {
        file.trees[0].query.body.pop();
    }
}

fn unchanged(_: &mut Rng, _: &mut File) {}

type Change = fn(&mut Rng, &mut File);

/// What is done to the old file, by name and weight.
const CHANGES: [(&str, usize, Change); 13] = [
    ("grown", 60, grow),
    ("shadowing", 20, shadow),
    ("unchanged", 2, unchanged),
    ("name in front", 3, name_in_front),
    ("type in front", 3, type_in_front),
    ("predicate in front", 3, predicate_in_front),
    ("name changed", 3, name_changed),
    ("name dropped", 2, name_dropped),
    ("limits changed", 2, limits_changed),
    ("node changed", 3, node_changed),
    ("query added", 2, query_added),
    ("query dropped", 2, query_dropped),
    ("damaged", 4, unchanged),
];

/// Every predicate that the file names is there, as far as it has any.
fn mend(file: &mut File) {
    let there = file.predicates.len() as u32;
    if there == 0 {
        return;
    }
    for ty in &mut file.types {
        if let Type::Fact(number) = ty {
            *number %= there;
        }
    }
    for node in file.trees.iter_mut().flat_map(|tree| &mut tree.nodes) {
        if let Shape::Fact(number, _) = &mut node.shape {
            *number %= there;
        }
    }
}

fn damage(rng: &mut Rng, file: &mut Vec<u8>) {
    let place = rng.below(file.len());
    match rng.below(3) {
        0 => file.truncate(place),
        1 => file[place] = rng.byte(),
        _ => file.insert(place, rng.pick(b"0af\n")),
    }
}

/// The old file, the new one, and what was done. Of a file that is refused: itself, twice.
fn pair(rng: &mut Rng, file: &[u8]) -> (Vec<u8>, Vec<u8>, &'static str) {
    let Ok(mut old) = judge::read(file, &Limits::default()) else {
        return (file.to_vec(), file.to_vec(), "refused");
    };
    if rng.chance(90) {
        mend(&mut old);
    }
    let weights: Vec<usize> = CHANGES.iter().map(|change| change.1).collect();
    let (name, _, change) = CHANGES[rng.weighted(&weights)];
    let mut new = old.clone();
    change(rng, &mut new);
    let (mut old, mut new) = (judge::encode(&old), judge::encode(&new));
    if name == "damaged" {
        let damaged = if rng.chance(50) { &mut old } else { &mut new };
        damage(rng, damaged);
    }
    (old, new, name)
}

// ---- The run

/// The number that the program prints of two files, whose names are its arguments.
fn printed(program: &str, old: &[u8], new: &[u8]) -> Result<u8, String> {
    let folder = std::env::temp_dir().join(format!("oracle-growth-{}", std::process::id()));
    let (a, b) = (folder.join("old"), folder.join("new"));
    let fault = |why: std::io::Error| format!("{program}: {why}");
    fs::create_dir_all(&folder).map_err(fault)?;
    fs::write(&a, old).map_err(fault)?;
    fs::write(&b, new).map_err(fault)?;
    let out = Command::new(program).args([&a, &b]).output();
    let printed = out.map_err(fault)?.stdout;
    match &printed[..] {
        [b'0', digit @ b'0'..=b'4', b'\n'] => Ok(digit - b'0'),
        other => Err(format!("{program} printed {other:?}")),
    }
}

pub fn compare(options: &Options) -> Done {
    let ports = compare::ports(options)?;
    let program = options.text("growth");
    if !linked::growth::HAS && program.is_none() {
        return Err(
            "the port's comparison of two files is not linked, and there is no --growth".to_owned(),
        );
    }
    let corpus = Corpus::from(options)?;
    let mut mismatches = Mismatches::new(options.text("out"));
    let mut progress = Progress::new(corpus.count());
    let limits = Limits::default();
    let (mut told, mut same, mut messages) = ([0_u64; 5], 0_u64, 0_u64);
    let mut other = [0_u64; 5];
    let mut changes: BTreeMap<(&str, u8), u64> = BTreeMap::new();
    for number in 0..corpus.count() {
        let item = corpus.item(number);
        let rng = &mut Rng::new(number ^ 0x6772_6f77);
        let (old, new, change) = pair(rng, &item.file);
        let words = [limits.words, limits.words, 16_383, 20_000, 0][rng.below(5)];
        let expected = premise(&old, &new, &limits);
        *changes.entry((change, expected)).or_default() += 1;
        told[usize::from(expected)] += 1;
        let mut found = vec![];
        if linked::growth::HAS {
            let mut work = vec![u32::MAX; words];
            let premise = linked::growth::growth(&old, &new, &mut work);
            let lent = if words < limits.words { 1 } else { expected };
            found.push(("library", premise, lent));
            if work.iter().any(|word| *word != 0) {
                found.push(("work slice", 1, 0));
            }
        }
        if let Some(program) = program {
            found.push(("program", printed(program, &old, &new)?, expected));
        }
        for (port, found, expected) in found {
            if found != expected {
                let numbers = format!("{port}: {found}, expected {expected}\n");
                let parts: [(&str, &[u8]); 3] = [
                    ("old", &old),
                    ("new", &new),
                    ("numbers", numbers.as_bytes()),
                ];
                mismatches.keep(&format!("growth-{port}-{}", item.name), &parts)?;
            }
        }
        // The same answer, byte for byte; and where a premise fails, another one now and then.
        for port in &ports {
            let (before, after) = (port.printed(&old, &limits)?, port.printed(&new, &limits)?);
            if before != after && expected > 0 {
                other[usize::from(expected)] += 1;
            }
            if expected > 0 {
                continue;
            }
            same += 1;
            messages += u64::from(before.windows(3).any(|at| at == b"\n0a"));
            if before != after {
                let parts: [(&str, &[u8]); 4] = [
                    ("old", &old),
                    ("new", &new),
                    ("before", &before),
                    ("after", &after),
                ];
                mismatches.keep(&format!("growth-{}-{}", port.name(), item.name), &parts)?;
            }
        }
        if expected == 0 {
            let (before, after) = (judge::answer(&old, &limits), judge::answer(&new, &limits));
            let left_out = [&before, &after].map(|ran| matches!(ran.answer, Answer::LeftOut(_)));
            if !left_out.contains(&true) && before.answer != after.answer {
                let parts: [(&str, &[u8]); 2] = [("old", &old), ("new", &new)];
                mismatches.keep(&format!("growth-rust-{}", item.name), &parts)?;
            }
        }
        if mismatches.too_many() {
            break;
        }
        progress.at(number + 1, mismatches.count);
    }
    for ((change, premise), count) in changes {
        println!("  {change}: {premise:02} {count}");
    }
    println!("  other answers where a premise fails: {:?}", &other[1..]);
    println!(
        "compare growth: {} pairs, told 00 to 04 {told:?}, the same answers {same}, with messages {messages}; {} mismatches",
        corpus.count(),
        mismatches.count
    );
    Ok(mismatches.count == 0)
}
