//! The judge and the model on the same files, and the mistakes that the files can tell.
//!
//! Call both from a thread with a large stack (`judge::on_large_stack`): the deepest
//! files want it.

mod agree;
mod lend;
mod mutants;
mod shrink;
mod telling;

pub use agree::{Agreed, agree, ends_in_a_message, full};
pub use lend::lent;
pub use mutants::{Lent, Told, mutants};
pub use shrink::shrink;
pub use telling::{telling, told_by};

/// The seed of the n-th file of a run.
pub fn nth(seed: u64, n: u64) -> u64 {
    seed.wrapping_mul(0x2545_f491_4f6c_dd1d).wrapping_add(n)
}

/// The n-th file of a run, with its style.
pub fn file(seed: u64, n: u64) -> (&'static str, Vec<u8>) {
    let seed = nth(seed, n);
    let style = files::pick(seed);
    (style, files::generate(style, seed))
}

/// The judge's limits as the model takes them.
pub fn as_model(limits: &judge::Limits) -> model::Limits {
    model::Limits {
        words: limits.words,
        bytes: limits.bytes,
        visits: limits.visits,
    }
}
