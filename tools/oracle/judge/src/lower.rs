//! Stand-in for lower.rs: the one constant of it that ty.rs reads.

/// As lower.rs has it.
pub const VALUE_FIELD: &str = "value";
