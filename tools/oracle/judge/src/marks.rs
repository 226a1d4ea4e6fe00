//! What the marking lines of the counted copy call (card 9): which entries of the environment were found by another
//! node than the one that made them, and which left without that. An entry is known by its unknown.

use std::cell::RefCell;
use std::collections::HashMap;

use crate::syntax::{NodeId, TyVarId};

#[derive(Default)]
struct Marks {
    looker: Option<NodeId>,
    makers: HashMap<usize, NodeId>,
    /// The unknowns of marked entries, in the order of marking.
    marked: Vec<usize>,
    left: Vec<NodeId>,
}

thread_local! {
    static MARKS: RefCell<Marks> = RefCell::default();
}

/// No entry yet: a query begins.
pub(crate) fn begin() {
    MARKS.take();
}

/// A node looks a name up, and finds this.
pub(crate) fn look(found: Option<TyVarId>, node: NodeId) {
    MARKS.with_borrow_mut(|marks| {
        marks.looker = Some(node);
        if let Some(var) = found {
            let var = var.index();
            if marks.makers[&var] != node && !marks.marked.contains(&var) {
                marks.marked.push(var);
            }
        }
    });
}

/// The node that looked last makes an entry.
pub(crate) fn made(var: TyVarId) {
    MARKS.with_borrow_mut(|marks| {
        let maker = marks.looker.expect("a look-up comes first");
        marks.makers.insert(var.index(), maker);
    });
}

/// How many are marked, for a rollback to come back to.
pub(crate) fn count() -> usize {
    MARKS.with_borrow(|marks| marks.marked.len())
}

pub(crate) fn back(marked: usize) {
    MARKS.with_borrow_mut(|marks| marks.marked.truncate(marked));
}

/// These entries leave, the oldest first.
pub(crate) fn leave(entries: impl Iterator<Item = TyVarId>) {
    MARKS.with_borrow_mut(|marks| {
        for var in entries {
            let var = var.index();
            if !marks.marked.contains(&var) {
                let maker = marks.makers[&var];
                marks.left.push(maker);
            }
        }
    });
}

/// The makers of entries that left unmarked, in order of leaving.
pub(crate) fn left() -> Vec<NodeId> {
    MARKS.with_borrow(|marks| marks.left.clone())
}
