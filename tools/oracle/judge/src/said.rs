//! Which of the texts of ty.rs a message is, so that a run can tell which ones it saw.

/// The texts, each by what stands in it for good.
pub const TEXTS: [&str; 22] = [
    "wildcard head",
    "literal bound",
    "literal denied",
    "patterns matched",
    "pattern denied",
    "edit distance",
    "fuzzy term",
    "not an alternative",
    "not a union",
    "not known here",
    "not a field",
    "union arity",
    "value ambiguous",
    "no value",
    "not a fact",
    "no fields",
    "no order",
    "expected, found",
    "union: absent",
    "union: renamed",
    "union: payload",
    "contains itself",
];

/// The text that a diagnostic has, by its code and its message. Names stand raw in a message, so one
/// made to look like another text may be taken for it: these are counts and no verdict.
pub(crate) fn text(code: &str, message: &str) -> &'static str {
    let starts = |words| message.starts_with(words);
    let place = match code {
        "reject/wildcard-in-head" => 0,
        "reject/bind-lhs" => 1 + usize::from(starts("nothing here")),
        "nyi/bind-unification" => 3 + usize::from(starts("denying")),
        "reject/fuzzy-distance" => 5,
        "reject/fuzzy-term" => 6,
        "reject/unknown-alternative" => 7,
        "reject/not-a-union" => 8,
        "reject/unresolved-access" => 9,
        "reject/unknown-field" => 10,
        "reject/union-arity" => 11,
        "reject/value-shadowed" => 12,
        "reject/no-value" => 13,
        "reject/infinite-type" => 21,
        _ if starts("only a fact") => 14,
        _ if starts("expected ") => 17 + difference(message),
        _ if message.ends_with(" has no fields") => 15,
        _ => 16,
    };
    TEXTS[place]
}

/// 0 where the sides are not two unions, else which difference follows them.
fn difference(message: &str) -> usize {
    let Some((_, tail)) = message.rsplit_once("}: ") else {
        return 0;
    };
    match () {
        _ if tail.starts_with("only one of them declares `") => 1,
        _ if tail.starts_with("discriminant ") => 2,
        _ if tail.ends_with(" carries a different payload") => 3,
        _ => 0,
    }
}
