//! `oracle stack`: how much stack the port's call uses on the deepest files.

use judge::Limits;
use linked::stack::Painted;

use crate::Done;
use crate::options::Options;

/// Seeds of the styles that go deep.
const SEEDS: u64 = 300;

/// What the call used on one file, and how it ended.
pub struct Used {
    pub bytes: usize,
    number: u8,
    pub name: String,
    pub file: Vec<u8>,
}

/// The deepest files, the one that takes the most first.
pub fn found() -> Result<Vec<Used>, String> {
    if !linked::HAS_CHECK {
        return Err(format!(
            "nothing to measure: {}",
            crate::compare::NO_LIBRARY
        ));
    }
    let mut files = files::stacked();
    for style in ["deep", "deepest", "visits", "edge", "large"] {
        let count = if style == "deepest" {
            SEEDS
        } else {
            SEEDS / 10
        };
        files.extend(
            (0..count).map(|seed| (format!("{style}-{seed}"), files::generate(style, seed))),
        );
    }
    let limits = Limits::default();
    let mut work = vec![0; limits.words];
    let mut answer = vec![0; limits.bytes];
    let mut painted = Painted::new()?;
    let mut found = vec![];
    for (name, file) in files {
        let (bytes, number) = painted.used(&file, &mut work, &mut answer)?;
        found.push(Used { bytes, number, name, file });
    }
    found.sort_by_key(|one| std::cmp::Reverse(one.bytes));
    Ok(found)
}

pub fn run(given: &[String]) -> Done {
    let options = Options::parse(given, &["out", "most"], &[])?;
    let most: Option<usize> = options.number("most")?;
    let found = found()?;
    for one in found.iter().take(8) {
        let how = match one.number {
            0 => "accepted".to_owned(),
            number => format!("refused with {number}"),
        };
        println!("{:8} bytes of stack: {}, a file of {} bytes, {how}", one.bytes, one.name, one.file.len());
    }
    let Some(deepest) = found.first() else {
        return Err("there are no files".to_owned());
    };
    if let Some(path) = options.text("out") {
        std::fs::write(path, &deepest.file).map_err(|why| format!("{path}: {why}"))?;
    }
    println!(
        "stack: {} files, {} bytes at most, by {}",
        found.len(),
        deepest.bytes,
        deepest.name
    );
    Ok(most.is_none_or(|most| deepest.bytes <= most))
}
