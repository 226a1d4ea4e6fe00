//! `trial agree SEED COUNT`, `trial mutants SEED COUNT`, and `trial usual SEED COUNT` for
//! the mutants with the program's own slices alone. `trial telling SEED COUNT` looks for
//! small files that tell them.

use std::path::Path;
use std::process::ExitCode;

use trial::Lent;

fn main() -> ExitCode {
    let given: Vec<String> = std::env::args().skip(1).collect();
    let [what, seed, count] = given.as_slice() else {
        eprintln!("trial agree|mutants|usual|telling SEED COUNT");
        return ExitCode::from(2);
    };
    let (Ok(seed), Ok(count)) = (seed.parse(), count.parse()) else {
        eprintln!("SEED and COUNT are numbers");
        return ExitCode::from(2);
    };
    let good = judge::on_large_stack(|| match what.as_str() {
        "agree" => {
            let agreed = trial::agree(seed, count, Path::new("mismatches"));
            println!("{agreed:#?}");
            agreed.mismatches == 0
        }
        "mutants" | "usual" => {
            let with = if what == "usual" {
                Lent::Usual
            } else {
                Lent::Varied
            };
            let told = trial::mutants(seed, count, with);
            println!("{:?}", told.surprises);
            told.surprises.is_empty()
        }
        "telling" => {
            let (kept, open) = trial::telling(&[], seed, count, 1_000);
            let bytes: usize = kept.iter().map(Vec::len).sum();
            println!("{} files, {bytes} bytes, not told: {open:#?}", kept.len());
            true
        }
        _ => false,
    });
    if good {
        ExitCode::SUCCESS
    } else {
        ExitCode::FAILURE
    }
}
