//! `styles SEEDS`: for each style its sizes, outcomes and time, by the model.

use std::collections::BTreeMap;
use std::time::Instant;

fn main() {
    let given = std::env::args().nth(1).and_then(|n| n.parse().ok());
    let seeds: u64 = given.unwrap_or(200);
    judge::on_large_stack(|| {
        for style in files::STYLES {
            let mut outcomes: BTreeMap<String, u64> = BTreeMap::new();
            let (mut bytes, mut longest, mut visits) = (0, 0, 0);
            let started = Instant::now();
            for seed in 0..seeds {
                let file = files::generate(style, seed);
                bytes += file.len();
                longest = longest.max(file.len());
                let ran = model::answer(&file, &model::Limits::default(), None);
                visits = visits.max(ran.visits.iter().copied().max().unwrap_or(0));
                let outcome = match ran.answer {
                    model::Answer::Refused(number) => format!("{number}"),
                    model::Answer::Lines(lines) => {
                        // A diagnostic's line begins with 08, a node's with 07.
                        let clean = !lines.split(|&b| b == b'\n').any(|l| l.starts_with(b"08"));
                        if clean { "clean" } else { "faulty" }.to_owned()
                    }
                };
                *outcomes.entry(outcome).or_default() += 1;
            }
            println!(
                "{style:20} {:6} bytes on average, {longest:6} at most, {visits:7} visits at most, {:6.2} ms each, {outcomes:?}",
                bytes as u64 / seeds,
                started.elapsed().as_secs_f64() * 1e3 / seeds as f64
            );
        }
    });
}
