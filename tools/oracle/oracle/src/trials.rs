//! `oracle generate`, `oracle agree` and `oracle mutants`.

use std::fs;
use std::path::Path;

use judge::Limits;

use crate::Done;
use crate::corpus::Corpus;
use crate::mismatch;
use crate::options::Options;
use crate::tally::{Progress, Tally};

/// Writes the files to a folder, or counts what they are.
pub fn generate(given: &[String]) -> Done {
    let options = Options::parse(given, &["seed", "count", "style", "out"], &[])?;
    let corpus = Corpus::from(&options)?;
    let out = options.text("out").map(Path::new);
    if let Some(folder) = out {
        fs::create_dir_all(folder).map_err(|why| format!("{}: {why}", folder.display()))?;
    }
    let mut tally = Tally::default();
    let mut progress = Progress::new(corpus.count());
    for number in 0..corpus.count() {
        let item = corpus.item(number);
        let limits = Limits::default();
        let ran = judge::answer(&item.file, &limits);
        tally.add(&ran, judge::read(&item.file, &limits).ok().as_ref());
        if let Some(folder) = out {
            let path = folder.join(&item.name);
            fs::write(&path, &item.file).map_err(|why| format!("{}: {why}", path.display()))?;
        }
        progress.at(number + 1, 0);
    }
    tally.print();
    println!("generate: {} files", tally.files);
    Ok(true)
}

/// The judge beside the model: two readers, two visit counts.
pub fn agree(given: &[String]) -> Done {
    let options = Options::parse(given, &["seed", "count", "out"], &[])?;
    let (seed, count) = (options.needed("seed")?, options.needed("count")?);
    let folder = mismatch::folder(options.text("out"));
    let agreed = trial::agree(seed, count, &folder);
    for (outcome, count) in agreed.outcomes.iter().chain(&agreed.codes) {
        println!("  {outcome}: {count}");
    }
    for text in judge::TEXTS {
        let count = agreed.texts.get(text).unwrap_or(&0);
        println!("  message \"{text}\": {count}");
    }
    println!(
        "  as long as the slice, with a message last: {}",
        agreed.full
    );
    println!(
        "agree: {} files, {} runs, {} of them left out, {} mismatches",
        agreed.files, agreed.runs, agreed.left_out, agreed.mismatches
    );
    Ok(agreed.mismatches == 0)
}

/// The mistakes beside the files.
pub fn mutants(given: &[String]) -> Done {
    let options = Options::parse(given, &["seed", "count"], &["usual"])?;
    let seed = options.number("seed")?.unwrap_or(1);
    let count = options.number("count")?.unwrap_or(60_000);
    let with = if options.flag("usual") {
        trial::Lent::Usual
    } else {
        trial::Lent::Varied
    };
    let told = trial::mutants(seed, count, with);
    let mut surprises = told.surprises;
    surprises.extend(crate::convert::mistakes(seed, count));
    surprises.extend(crate::desks::tally_mistakes(seed, count));
    surprises.extend(crate::desks::mistakes(seed, count));
    for surprise in &surprises {
        println!("SURPRISE {surprise}");
    }
    Ok(surprises.is_empty())
}
