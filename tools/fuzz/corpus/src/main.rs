//! `corpus DIR SEEDS`: files of every style of the generator, SEEDS of each, one file each. `corpus --stream SEED COUNT`: so many files from
//! that seed on, each of the style that is drawn for it, on standard output, each after a line of its name and its length. `corpus --deepest
//! DIR`: the files for the stack, every recursion as deep as the limits let it go.

use std::io::Write;
use std::path::PathBuf;

fn stream(from: u64, count: u64) -> std::io::Result<()> {
    let mut out = std::io::BufWriter::new(std::io::stdout().lock());
    for seed in from..from + count {
        let style = files::pick(seed);
        let file = files::generate(style, seed);
        writeln!(out, "{style}-{seed} {}", file.len())?;
        out.write_all(&file)?;
    }
    out.flush()
}

fn main() {
    let words: Vec<String> = std::env::args().skip(1).collect();
    let number = |at: usize| words.get(at).and_then(|n| n.parse::<u64>().ok());
    if let (Some("--stream"), Some(from), Some(count)) = (words.first().map(String::as_str), number(1), number(2)) {
        stream(from, count).expect("the files can be written");
        return;
    }
    if let (Some("--deepest"), Some(folder)) = (words.first().map(String::as_str), words.get(1).map(PathBuf::from)) {
        std::fs::create_dir_all(&folder).expect("the folder can be made");
        for (name, file) in files::stacked() {
            std::fs::write(folder.join(name), file).expect("a file can be written");
        }
        return;
    }
    let (Some(folder), Some(seeds)) = (words.first().map(PathBuf::from), number(1)) else {
        eprintln!("usage: corpus DIR SEEDS, corpus --stream SEED COUNT, or corpus --deepest DIR");
        std::process::exit(2);
    };
    std::fs::create_dir_all(&folder).expect("the folder can be made");
    for style in files::STYLES {
        for seed in 0..seeds {
            std::fs::write(folder.join(format!("{style}-{seed}")), files::generate(style, seed)).expect("a file can be written");
        }
    }
}
