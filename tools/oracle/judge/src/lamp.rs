//! Card 4's lamp by the Rust: whether a query has a diagnostic, also one made before the visits ran out.

use crate::diag::Diagnostics;
use crate::visits::{self, Stop};
use crate::{Limits, TOO_LARGE, TOO_LONG, counted, levenshtein, read, tree};

#[derive(Debug, Clone, Copy, PartialEq)]
pub enum Lamp {
    Yes,
    No,
    /// The refusal's number, 1 to 11 or 13.
    Refused(u8),
    /// The Rust can't hold what the file describes; the words say why.
    LeftOut(&'static str),
}

/// The lamp of a file: its queries in order, each whole. Needs the large stack.
pub fn lamp(file: &[u8], limits: &Limits) -> Lamp {
    let file = match read(file, limits) {
        Ok(file) => file,
        Err(number) => return Lamp::Refused(number),
    };
    let base = tree::base(&file);
    levenshtein::set(file.max_distance, file.max_term);
    visits::begin();
    for tree in &file.trees {
        let tree = tree::build(tree, &base);
        let mut diagnostics = Diagnostics::new();
        let (left, _) = visits::counted(limits.visits, || {
            counted::probe::walk(&tree.ast, &base.schema, &base.interner, &mut diagnostics)
        });
        if diagnostics.iter().next().is_some() {
            return Lamp::Yes;
        }
        match left {
            Ok(_) => {}
            Err(Stop::Visits) => return Lamp::Refused(11),
            Err(Stop::Size) => return Lamp::LeftOut(TOO_LARGE),
            Err(Stop::Text) => return Lamp::LeftOut(TOO_LONG),
        }
    }
    Lamp::No
}
