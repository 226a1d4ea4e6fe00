//! What the counting lines of the counted copy call.

use std::cell::Cell;
use std::panic::{AssertUnwindSafe, catch_unwind, resume_unwind};

/// The most type nodes that the Rust is let write out in one run, `zonk` in `compare`, `schema_ty`
/// and `render` together. A node takes up to 40 bytes, so this is some 160 MB.
const MOST_WRITTEN_OUT: u64 = 1 << 22;

/// The most bytes of message texts that the Rust is let build for one file. It keeps the messages
/// of all queries, and for a time the parts of the one that it builds.
const MOST_TEXT: u64 = 1 << 26;

/// The most bytes that a type node adds to a text beside its names: an alternative of a union, of
/// type Error and with a discriminant of ten digits.
const AROUND: u64 = 40;

thread_local! {
    static LEFT: Cell<u64> = const { Cell::new(0) };
    static MADE: Cell<u64> = const { Cell::new(0) };
    static WRITTEN_OUT: Cell<u64> = const { Cell::new(0) };
    static TEXT: Cell<u64> = const { Cell::new(0) };
}

/// Why a counted run did not reach its end.
#[derive(Debug, Clone, Copy, PartialEq)]
pub(crate) enum Stop {
    /// It would have made one visit more than allowed.
    Visits,
    /// It would have written out types too large to hold.
    Size,
    /// It would have built messages too large to hold.
    Text,
}

/// No text is built yet: a file begins.
pub(crate) fn begin() {
    TEXT.set(0);
}

/// Runs `work` with at most `limit` visits. Answers what it gave or why it stopped, and the visits
/// that it made.
pub(crate) fn counted<R>(limit: u64, work: impl FnOnce() -> R) -> (Result<R, Stop>, u64) {
    LEFT.set(limit);
    MADE.set(0);
    WRITTEN_OUT.set(0);
    let result =
        catch_unwind(AssertUnwindSafe(work)).map_err(|thrown| match thrown.downcast::<Stop>() {
            Ok(stop) => *stop,
            Err(other) => resume_unwind(other),
        });
    (result, MADE.get())
}

/// So many visits at once; a list of calls may spend some in between.
pub(crate) fn spend(visits: u64) {
    let left = LEFT.get();
    if visits > left {
        resume_unwind(Box::new(Stop::Visits));
    }
    LEFT.set(left - visits);
    MADE.set(MADE.get() + visits);
}

/// One entry to `unify`, `occurs` or `orderable`.
pub(crate) fn visit() {
    spend(1);
}

/// One type node written out.
pub(crate) fn write_out() {
    let written = WRITTEN_OUT.get() + 1;
    if written > MOST_WRITTEN_OUT {
        resume_unwind(Box::new(Stop::Size));
    }
    WRITTEN_OUT.set(written);
}

/// One type node rendered, with the name of its predicate.
pub(crate) fn render(predicate: Option<&str>) {
    write_out();
    write_name(predicate);
    write_text(AROUND);
}

/// One name looked up for a text.
pub(crate) fn write_name(name: Option<&str>) {
    write_text(name.map_or(1, str::len) as u64);
}

fn write_text(bytes: u64) {
    let text = TEXT.get() + bytes;
    if text > MOST_TEXT {
        resume_unwind(Box::new(Stop::Text));
    }
    TEXT.set(text);
}
