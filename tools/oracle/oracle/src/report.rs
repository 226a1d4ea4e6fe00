//! `oracle bench report`: the whole bench in one run, as a page of ratios.

use std::time::{Duration, Instant};

use judge::{Answer, Limits, Parts};

use crate::Done;
use crate::bench::{self, Slices};
use crate::{convert, stack, texts as tests};

/// How long a part of the report may go on with further rounds once each file had its first ones.
const PATIENCE: Duration = Duration::from_secs(50);

pub fn run(rounds: u32) -> Done {
    if !linked::HAS_LAMP || !linked::HAS_READ {
        return Err("the report also needs libreading_calls.a and the lamp of libsigla_lib.a".to_owned());
    }
    println!("# The bench\n");
    println!("Printed by `tools/bench`, not written by hand. Machine: {}.", machine());
    println!("Ratios are the port's call (reading, check, answer, both slices cleared) to the Rust on the same file, each");
    println!("the quickest of {rounds} rounds in turn, in one process; below 1 the port is quicker. How both were built:");
    println!("{}.", bench::BEST);
    styles(rounds)?;
    parts("Shapes", &files::shapes(), rounds)?;
    // By themselves: what the Rust allocates for one of these empties the caches, and the smallest file would pay.
    parts("A million visits", &bench::million(&Limits::default()), rounds)?;
    parts("Messages", &files::speaking(), rounds)?;
    growth(rounds)?;
    forms(rounds)?;
    lamp(rounds)?;
    converters(rounds)?;
    texts(rounds)?;
    stack()?;
    Ok(true)
}

/// The processor and how many of it; nothing that names the machine itself.
fn machine() -> String {
    let text = std::fs::read_to_string("/proc/cpuinfo").unwrap_or_default();
    let model = text
        .lines()
        .find_map(|line| line.strip_prefix("model name")?.split_once(':'))
        .map_or("unknown processor", |(_, model)| model.trim());
    let cores = std::thread::available_parallelism().map_or(1, usize::from);
    format!("{model}, {cores} cores, {}", std::env::consts::ARCH)
}

fn quickest(best: &mut Duration, work: impl FnOnce()) {
    let started = Instant::now();
    work();
    *best = (*best).min(started.elapsed());
}

fn ratio(a: Duration, b: Duration) -> f64 {
    a.as_secs_f64() / b.as_secs_f64().max(1e-9)
}

/// The Rust's parts, each the quickest.
struct Best {
    whole: Duration,
    clear: Duration,
    read: Duration,
    lamp: Duration,
    dark: Duration,
    rust: Parts,
}

impl Best {
    fn new() -> Self {
        let most = Duration::MAX / 16;
        let rust = Parts { read: most, build: most, check: most, write: most, free: most };
        Best { whole: most, clear: most, read: most, lamp: most, dark: most, rust }
    }

    fn round(&mut self, file: &[u8], limits: &Limits, slices: &mut Slices) {
        self.whole = self.whole.min(slices.check(file));
        self.clear = self.clear.min(slices.check(b""));
        self.read = self.read.min(slices.read(file));
        quickest(&mut self.lamp, || {
            linked::lamp(file, &mut slices.work);
        });
        quickest(&mut self.dark, || {
            linked::lamp(b"", &mut slices.work);
        });
        let parts = judge::timed(file, limits);
        let rust = &mut self.rust;
        rust.read = rust.read.min(parts.read);
        rust.build = rust.build.min(parts.build);
        rust.check = rust.check.min(parts.check);
        rust.write = rust.write.min(parts.write);
        rust.free = rust.free.min(parts.free);
    }
}

/// What each file took, with further rounds while there is patience.
fn timed(files: &[(String, Vec<u8>)], rounds: u32) -> Result<Vec<Best>, String> {
    let limits = Limits::default();
    let mut slices = Slices::new(&limits);
    let mut all: Vec<Best> = vec![];
    for (name, file) in files {
        let answer = judge::answer(file, &limits).answer;
        if !matches!(answer, Answer::Lines(_)) {
            return Err(format!("{name} is not accepted: {answer:?}"));
        }
        bench::right(name, file, &answer, &limits)?;
        all.push(Best::new());
    }
    let started = Instant::now();
    for round in 0..rounds {
        if round > 1 && started.elapsed() > PATIENCE {
            break;
        }
        for ((_, file), best) in files.iter().zip(&mut all) {
            best.round(file, &limits, &mut slices);
        }
    }
    Ok(all)
}

/// Generated files by style: the ratio of the sums, and how the files' own ratios spread.
fn styles(rounds: u32) -> Result<(), String> {
    const COUNT: u64 = 12;
    let limits = Limits::default();
    println!("\n## By style\n");
    println!("{COUNT} files each; refusals 11 and 12 and files that the Rust cannot hold are left out.\n");
    println!("| style | bytes | ratio | with the Rust's lines | half are below | the most |");
    println!("|---|---|---|---|---|---|");
    for style in files::STYLES {
        let mut slices = Slices::new(&limits);
        let (mut sums, mut bytes, mut ratios) = ([Duration::ZERO; 3], 0, vec![]);
        for number in 0..COUNT {
            let file = files::generate(style, trial::nth(1, number));
            let answer = judge::answer(&file, &limits).answer;
            if matches!(answer, Answer::LeftOut(_) | Answer::Refused(11 | 12)) {
                continue;
            }
            bench::right(&format!("{style} {number}"), &file, &answer, &limits)?;
            let mut best = [Duration::MAX; 3];
            for _ in 0..rounds {
                let parts = judge::timed(&file, &limits);
                for (best, time) in best.iter_mut().zip([slices.check(&file), parts.checked(), parts.answered()]) {
                    *best = (*best).min(time);
                }
            }
            bytes += file.len();
            ratios.push(ratio(best[0], best[1]));
            for (sum, best) in sums.iter_mut().zip(best) {
                *sum += best;
            }
        }
        if ratios.is_empty() {
            continue;
        }
        ratios.sort_by(f64::total_cmp);
        let [port, rust, lines] = sums;
        println!(
            "| {style} | {} | {:.2} | {:.2} | {:.2} | {:.2} |",
            bytes / ratios.len(),
            ratio(port, rust),
            ratio(port, lines),
            ratios[(ratios.len() - 1) / 2],
            ratios[ratios.len() - 1]
        );
    }
    Ok(())
}

/// A part of the page that is one table.
fn table(title: &str, text: &str, columns: &str, rows: impl Iterator<Item = String>) {
    println!("\n## {title}\n\n{text}\n\n| {columns} |\n|{}", "---|".repeat(columns.split('|').count()));
    for row in rows {
        println!("| {row} |");
    }
}

/// Forms beside the Rust, which reads the schema once, and beside calls with one query each.
fn forms(rounds: u32) -> Result<(), String> {
    let rows = bench::form_times(rounds)?.into_iter().map(|form| {
        let [rust, lines, alone] = [form.rust, form.lines, form.alone].map(|other| ratio(form.port, other));
        format!("{} | {} | {rust:.2} | {lines:.2} | {alone:.2}", form.queries, form.bytes)
    });
    table(
        "Forms",
        "Five forms each; the last column is to the port's calls on files of one query each.",
        "queries | bytes | ratio | with the Rust's lines | to calls of one query each",
        rows,
    );
    Ok(())
}

/// The lamp beside the full call.
fn lamp(rounds: u32) -> Result<(), String> {
    let rows = crate::lamp::times(rounds)?;
    table(
        "The lamp",
        "Files of about a million visits with a diagnostic: the lamp's time to the full call's.",
        "file | its diagnostic | ratio",
        rows.iter().map(|lit| format!("{} | {} | {:.2}", lit.name, lit.place, lit.ratio())),
    );
    Ok(())
}

/// The converters beside the reading of the same file, and a copy of it in memory.
fn converters(rounds: u32) -> Result<(), String> {
    let rows = convert::times(rounds)?.into_iter().map(|one| {
        let [out, back, copy] = [one.widen, one.back, one.copy].map(|time| ratio(time, one.read));
        format!("{} | {} | {out:.2} | {back:.2} | {copy:.2}", one.name, one.bytes)
    });
    table(
        "The converters",
        "Ratios to reading the file and clearing the slices.",
        "file | bytes | out | back | a copy in memory",
        rows,
    );
    Ok(())
}

/// The two tests of a text beside each other and beside the Rust's.
fn texts(rounds: u32) -> Result<(), String> {
    let rows = tests::times(rounds.max(20))?.into_iter().map(|one| {
        let [to_first, first, by_table] =
            [(one.table, one.first), (one.first, one.rust), (one.table, one.rust)].map(|(a, b)| ratio(a, b));
        format!("{} | {} | {to_first:.2} | {first:.2} | {by_table:.2}", one.name, one.characters)
    });
    table(
        "Texts",
        "Long names: the test by table to the first one, which the reading uses; both to the Rust's.",
        "text | characters | table to first | first to the Rust | table to the Rust",
        rows,
    );
    Ok(())
}

/// The greatest use of the stack; it is counted, not timed.
fn stack() -> Result<(), String> {
    let found = stack::found()?;
    table(
        "Stack",
        &format!("The files that take the most of {}, on a painted stack.", found.len()),
        "file | bytes | stack, bytes",
        found.iter().take(4).map(|one| format!("{} | {} | {}", one.name, one.file.len(), one.bytes)),
    );
    Ok(())
}

/// Files of one shape each, with where the time goes on both sides in per cent of that side's own time.
fn parts(title: &str, files: &[(String, Vec<u8>)], rounds: u32) -> Result<(), String> {
    println!("\n## {title}\n");
    println!("Where the time goes, in per cent: of the port's call, and of the Rust's work with its lines. Check and answer are");
    println!("told apart by the lamp, which writes no line; where a file has a diagnostic the check has both.\n");
    println!("| file | ratio | with lines | clearing | reading | check | answer | Rust: reading | building | check | freeing | lines |");
    println!("|---|---|---|---|---|---|---|---|---|---|---|---|");
    for ((name, file), best) in files.iter().zip(timed(files, rounds)?) {
        let rust = best.rust;
        let dark = linked::lamp(file, &mut vec![0; Limits::default().words]) == (0, 0);
        let rest = best.whole.saturating_sub(best.clear).saturating_sub(best.read);
        let check = match dark {
            true => best.lamp.saturating_sub(best.dark).saturating_sub(best.read).min(rest),
            false => rest,
        };
        let of = |part: Duration| format!("{:.0}", 100.0 * ratio(part, best.whole));
        let in_rust = |part: Duration| format!("{:.0}", 100.0 * ratio(part, rust.answered()));
        println!(
            "| {name} | {:.2} | {:.2} | {} | {} | {} | {} | {} | {} | {} | {} | {} |",
            ratio(best.whole, rust.checked()),
            ratio(best.whole, rust.answered()),
            of(best.clear),
            of(best.read),
            of(check),
            if dark { of(rest - check) } else { String::new() },
            in_rust(rust.read),
            in_rust(rust.build),
            in_rust(rust.check),
            in_rust(rust.free),
            in_rust(rust.write)
        );
    }
    Ok(())
}

/// Twice as many of each thing, and twice again: how the time grows on both sides.
fn growth(rounds: u32) -> Result<(), String> {
    println!("\n## Growth\n");
    println!("How many times as long twice as many take, and twice as many again, without the clearing; then the ratio at the most.\n");
    println!("| what | how many | port, twice | twice again | Rust, twice | twice again | ratio at the most |");
    println!("|---|---|---|---|---|---|---|");
    for (what, sizes) in files::doubling() {
        let files: Vec<(String, Vec<u8>)> =
            sizes.iter().map(|(count, file)| (format!("{what} {count}"), file.clone())).collect();
        let all = timed(&files, rounds)?;
        let port: Vec<Duration> = all.iter().map(|best| best.whole.saturating_sub(best.clear)).collect();
        let rust: Vec<Duration> = all.iter().map(|best| best.rust.answered()).collect();
        let counts: Vec<String> = sizes.iter().map(|(count, _)| count.to_string()).collect();
        println!(
            "| {what} | {} | {:.1} | {:.1} | {:.1} | {:.1} | {:.2} |",
            counts.join(", "),
            ratio(port[1], port[0]),
            ratio(port[2], port[1]),
            ratio(rust[1], rust[0]),
            ratio(rust[2], rust[1]),
            ratio(all[2].whole, all[2].rust.checked())
        );
    }
    Ok(())
}
