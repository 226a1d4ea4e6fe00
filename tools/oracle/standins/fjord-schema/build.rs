//! Names the unchanged schema.rs as a module of this crate.

#[path = "../../sources.rs"]
mod sources;

fn main() {
    let schema = sources::find("crates/fjord-schema/src/schema.rs");
    sources::write("modules.rs", &sources::module("schema", &schema));
}
