//! Which mistakes of the model card 11's test load tells: `cargo run --release --example load [COUNT]`.

use model::{Limits, MUTATIONS};

fn main() {
    let count = std::env::args().nth(1).and_then(|n| n.parse().ok());
    judge::on_large_stack(move || run(count.unwrap_or(10_000)));
}

fn run(count: u32) {
    let limits = Limits::default();
    let mut told = vec![0u32; MUTATIONS.len()];
    for seed in 0..count {
        let file = files::load(seed);
        let right = model::answer(&file, &limits, None).answer;
        for (mutation, told) in told.iter_mut().enumerate() {
            *told += (model::answer(&file, &limits, Some(mutation)).answer != right) as u32;
        }
    }
    for (&(name, equal), told) in MUTATIONS.iter().zip(&told) {
        println!("{name:64} {told}{}", if equal { ", equal in behaviour" } else { "" });
    }
    let wrong = MUTATIONS.iter().filter(|mutation| !mutation.1).count();
    let apart = MUTATIONS
        .iter()
        .zip(&told)
        .filter(|(mutation, told)| !mutation.1 && **told > 0)
        .count();
    println!("{count} files tell {apart} of {wrong} wrong ones");
}
