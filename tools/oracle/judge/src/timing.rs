//! The Rust's way from a file to its answer, with nothing counted and each part timed.

use std::hint::black_box;
use std::time::{Duration, Instant};

use crate::diag::Diagnostics;
use crate::write::Lines;
use crate::{Limits, levenshtein, read, tree, ty};

/// How long each part took. A part that a refusal leaves out took no time.
#[derive(Debug, Clone, Copy, Default)]
pub struct Parts {
    /// From bytes to what the file describes, or a refusal.
    pub read: Duration,
    /// The schema, and for each query the tree that `check` takes.
    pub build: Duration,
    /// `check` of ty.rs.
    pub check: Duration,
    /// The answer's lines.
    pub write: Duration,
    /// Giving back what the parts before hold.
    pub free: Duration,
}

impl Parts {
    /// Reading, building and checking: what a caller of the Rust waits for.
    pub fn checked(&self) -> Duration {
        self.read + self.build + self.check + self.free
    }

    /// The lines of the answer too, as the port's call does.
    pub fn answered(&self) -> Duration {
        self.checked() + self.write
    }
}

/// Times the parts on a file that the Rust can hold and that ends within the visits: ask `answer`
/// first. Call it on a thread with the large stack.
pub fn timed(file: &[u8], limits: &Limits) -> Parts {
    let mut parts = Parts::default();
    let mut last = Instant::now();
    let mut lap = || {
        let now = Instant::now();
        let took = now - last;
        last = now;
        took
    };
    let Ok(file) = black_box(read(black_box(file), limits)) else {
        parts.read = lap();
        return parts;
    };
    parts.read = lap();
    let base = black_box(tree::base(&file));
    levenshtein::set(file.max_distance, file.max_term);
    parts.build = lap();
    let mut lines = Lines::new(limits.bytes);
    for (number, tree) in file.trees.iter().enumerate() {
        let tree = black_box(tree::build(tree, &base));
        parts.build += lap();
        let mut diagnostics = Diagnostics::new();
        let typed = ty::check(&tree.ast, &base.schema, &base.interner, &mut diagnostics);
        black_box((&typed, &diagnostics));
        parts.check += lap();
        if file.trees.len() > 1 {
            crate::put_number(&mut lines, number);
        }
        crate::put_types(&mut lines, &typed, &tree, &base);
        crate::put_diagnostics(&mut lines, &diagnostics);
        // The Rust counts no visits; the line's length is the same for any number.
        crate::put_visits(&mut lines, 0);
        parts.write += lap();
        drop((tree, diagnostics, typed));
        parts.free += lap();
    }
    black_box(lines.into_bytes());
    parts.write += lap();
    drop((file, base));
    parts.free += lap();
    parts
}
