//! The crate of schema.rs, which is compiled unchanged from the folder of sources.
//!
//! It stands apart because schema.rs names `crate::syntax::lower`, a module of its own crate that
//! is not among the sources, and not the syntax.rs that is.

include!(concat!(env!("OUT_DIR"), "/modules.rs"));

/// Stand-in for what schema.rs names and no query check reaches.
pub mod syntax {
    pub mod lower {
        /// Only `with_reserved_virtual` reads it, which nothing here calls.
        pub const RESERVED_NAMESPACE: &str = "fjord.";
    }
}
