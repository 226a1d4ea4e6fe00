//! What refusals and codes mean.

use sigla::Refusal;

/// For a refusal's number, in decimal or after `0x`, or a code.
pub fn explain(what: &str) -> Option<String> {
    let number = match what.strip_prefix("0x") {
        Some(digits) => u8::from_str_radix(digits, 16).ok(),
        None => what.parse().ok(),
    };
    if let Some(refusal) = number.and_then(Refusal::from_number) {
        let cure = CURES.iter().find(|cure| cure.0 == refusal.number())?;
        return Some(format!("{refusal}\n\n{}", cure.1));
    }
    CODES.iter().find(|code| code.0 == what || code.0.strip_prefix("reject/") == Some(what)).map(|code| format!("{}\n\n{}", code.0, code.1))
}

/// A line for each.
pub fn all() -> String {
    let mut out = String::from("Refusals, by number:\n\n");
    for (number, _) in CURES {
        let reason = Refusal::from_number(number).map_or("", Refusal::reason);
        out += &format!("  {number:>2}  {reason}\n");
    }
    out += "\nCodes of diagnostics:\n\n";
    for (code, text) in CODES {
        let first = text.split_inclusive(". ").next().unwrap_or(text);
        out += &format!("  {code:<26}  {}\n", first.trim_end().replace('\n', " "));
    }
    out
}

/// What can be done about each refusal. After each the slices that were lent hold zeros alone.
const CURES: [(u8, &str); 18] = [
    (1, "A call was lent too short a work slice: lend 16,384 words (SIGLA_WORDS). The programs always do."),
    (2, "Split a form into several files: each query is answered as if it stood alone."),
    (3, "A line is digits 0 to 9 and a to f, two for each byte, and ends with LF. A line end of CR LF, capital letters, a blank,\nan empty line at the end or a last line without LF are the usual causes."),
    (4, "Kinds come in this order: 01 once, then all 02, 03, 04, then for each query its 05 lines and its 06 line. The last line\nis a 06. An empty file gets this number too."),
    (5, "The schema has too many names, types or predicates, or the query too many nodes. A query may be split by queries of its\nown; names that nothing uses may be left out."),
    (6, "The line is not written as its kind asks. A file of the narrow edition, with predicate numbers of 2 bytes, gets this\nnumber: turn it into this one with `sigla-widen`."),
    (7, "A name's text is not UTF-8 as RFC 3629 has it. Characters as two halves of a UTF-16 pair (ed a0.. to ed bf..) are no\nUTF-8."),
    (8, "Two 02 lines have the same text. A name is written once and referred to by its number."),
    (9, "A name, a type or a node must stand on an earlier line, a node in the same query; and a node is named by one frame at\nmost. A predicate's number alone need not exist."),
    (10, "The fields of a record type have different names, the alternatives of a union type different discriminants."),
    (11, "The query's types double at each step, as x1 = {a = x0, b = x0}, x2 = {a = x1, b = x1} and so on do. Ask for less in one\nquery."),
    (12, "The types and messages, written out, do not fit. A call may lend a longer slice; the programs lend 65,536 bytes. Split a\nform into several files."),
    (13, "Split the form: a file has at most 64 queries."),
    (14, "The older edition has 2 bytes for a predicate's number, so this file can't go back to it."),
    (15, "A tally is full, or was not made by the calls. Bill it and begin another one at zero; this one is as it was."),
    (16, "The desk's visits of the day are used up, or kept for the others by their shares. The ceiling was charged.\n`sigla_ceiling` tells what is left; a new day sets each use to 0."),
    (17, "Desks count from 0. From 1 to 16 desks; the shares together are no more than the pool, a cap is no lower than its share.\nA group handed in must be one that the calls made. It is as it was."),
    (18, "The plain solver alone gives this number, never the check. Lend `sigla_inspect` a longer slice; the program lends 65,536\nwords. A pair of types takes twice its words, a binding twice two more than those of its type (docs/FORMAT.md, The plain\nsolver)."),
];

const CODES: [(&str, &str); 14] = [
    ("nyi/bind-unification", "A pattern other than a variable, the wildcard or a record of such stands on the left of `=`, or anything but a variable before `!=`. \nPut the variable on the left."),
    ("reject/bind-lhs", "A literal stands where a variable is bound or denied. Put the variable on the left."),
    ("reject/fuzzy-distance", "The edit distance of a fuzzy term is 0, or above the file's first limit."),
    ("reject/fuzzy-term", "A fuzzy term has more characters than the file's second limit."),
    ("reject/infinite-type", "A pattern would have to contain itself. The same unknown stands on both sides, on one of them within a record."),
    ("reject/no-value", "`.value` is asked of a fact whose predicate has none."),
    ("reject/not-a-union", "An alternative is selected from what is no union."),
    ("reject/type-mismatch", "Two types that should be one are not; or a comparison is asked of a type without an order, `.value` of what is no fact,\nor a field of what has none."),
    ("reject/union-arity", "A union's value names no alternative, or more than one."),
    ("reject/unknown-alternative", "The union has no alternative of this name."),
    ("reject/unknown-field", "The record, or the fact's key, has no field of this name."),
    ("reject/unresolved-access", "A field, a value or an alternative is asked of what has no known type at this place of the query. Say earlier what it is."),
    ("reject/value-shadowed", "`.value` could be the fact's value or the key's field called `value`."),
    ("reject/wildcard-in-head", "The head is a wildcard, and a wildcard projects nothing."),
];
