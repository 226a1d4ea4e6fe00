//! Names the unchanged sources as modules of this crate, and makes the two copies of ty.rs that the
//! judge needs beside it.
//!
//! - `counted`: with counting lines, taken out again and compared with ty.rs byte for byte.
//! - Both copies end with a module `probe`, a child of theirs and so able to see what is private.
//!   Cutting it off gives the text before it back, which is compared as well.

#[path = "../count.rs"]
mod count;
#[path = "../sources.rs"]
mod sources;

use std::{fs, path::Path};

fn main() {
    let source = |name: &str| sources::find(&format!("crates/fjord-engine/src/{name}.rs"));
    let ty = source("ty");
    let text = fs::read_to_string(&ty).expect("ty.rs can be read");
    let counted = count::counted(&text).unwrap_or_else(|why| stop(&why));

    let modules = [
        sources::module("ty", &ty),
        sources::module("syntax", &source("syntax")),
        sources::module("diag", &source("diag")),
        probed("counted", &counted),
        probed("probed", &text),
    ];
    sources::write("modules.rs", &modules.concat());
}

/// A copy of `text` with the probe at its end, as a module.
fn probed(name: &str, text: &str) -> String {
    let probe = Path::new(env!("CARGO_MANIFEST_DIR")).join("probe.rs");
    println!("cargo::rerun-if-changed={}", probe.display());
    let tail = format!("#[path = {probe:?}]\npub mod probe;\n");

    let file = sources::write(&format!("{name}.rs"), &format!("{text}{tail}"));
    let written = fs::read_to_string(&file).expect("just written");
    if written.strip_suffix(&tail) != Some(text) {
        stop("the copy without its probe is not the text it was made from");
    }
    sources::module(name, &file)
}

fn stop(why: &str) -> ! {
    println!("cargo::error={why}");
    std::process::exit(1)
}
