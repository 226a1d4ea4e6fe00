//! Files that grow in one respect, up to its limit, for questions of time.

use crate::draft::{Draft, Expr, Shape, Stmt};

/// What grows, and the most there can be of it in a file made here.
pub const GROWING: [(&str, usize); 10] = [
    ("names", 256),
    ("names-alike", 256),
    ("names-within", 256),
    ("fields", 7168),
    ("alternatives", 3584),
    ("predicates", 128),
    ("literals", 512),
    ("variables", 250),
    ("records", 500),
    ("statements", 240),
];

/// A file with so many of them, if that is known.
pub fn filled(what: &str, count: usize) -> Option<Vec<u8>> {
    let mut draft = Draft::new();
    match what {
        // They differ at once, at their ends alone, or shortly before them.
        "names" => names(&mut draft, count, |n| format!("{n:03}{}", "x".repeat(110))),
        "names-alike" => names(&mut draft, count, |n| format!("{}{n:03}", "x".repeat(110))),
        "names-within" => names(&mut draft, count, |n| {
            format!("{}{n:03}xxxx", "x".repeat(106))
        }),
        "fields" => fields(&mut draft, count),
        "alternatives" => alternatives(&mut draft, count),
        "predicates" => {
            draft.name("a");
            let ty = draft.ty(Shape::Int);
            for n in 0..count {
                draft.predicate(0, ty, (n % 2 == 0).then_some(ty));
            }
        }
        "literals" => {
            for n in 1..count {
                draft.node(if n % 2 == 0 { Expr::Int } else { Expr::Str });
            }
        }
        "variables" => {
            for n in 0..count {
                let name = draft.name(&format!("v{n}"));
                draft.var(name);
            }
            let all: Vec<u16> = (0..count as u16).collect();
            for some in all.chunks(200) {
                let sum = draft.node(Expr::Arith(some.to_vec()));
                draft.body.push(Stmt::Implicit(sum));
            }
        }
        "records" => {
            draft.name("a");
            let mut at = draft.node(Expr::Int);
            for n in 1..count {
                at = draft.node(Expr::Record(vec![(0, at)]));
                if n % 20 == 0 {
                    draft.body.push(Stmt::Implicit(at));
                    at = draft.node(Expr::Int);
                }
                if draft.nodes.len() > 508 {
                    break;
                }
            }
            draft.body.push(Stmt::Implicit(at));
        }
        "statements" => {
            for n in 0..count / 2 {
                let name = draft.name(&format!("v{}", n % 90));
                let left = draft.var(name);
                let right = draft.node(Expr::Int);
                draft.bind(left, right);
                if draft.body.len() == 90 {
                    let body = std::mem::take(&mut draft.body);
                    let head = draft.node(Expr::Int);
                    let inner = draft.node(Expr::Subquery(head, body));
                    draft.body.push(Stmt::Implicit(inner));
                }
            }
        }
        _ => return None,
    }
    draft.head = draft.node(Expr::Int);
    Some(draft.bytes())
}

fn names(draft: &mut Draft, count: usize, text: impl Fn(usize) -> String) {
    for n in 0..count {
        draft.names.push(text(n).into_bytes());
    }
}

/// Records of up to 28 fields.
fn fields(draft: &mut Draft, count: usize) {
    for n in 0..28 {
        draft.name(&format!("f{n}"));
    }
    let int = draft.ty(Shape::Int);
    let numbers: Vec<u16> = (0..count).map(|n| (n % 28) as u16).collect();
    for some in numbers.chunks(28).take(255) {
        draft.ty(Shape::Record(
            some.iter().map(|name| (*name, int)).collect(),
        ));
    }
}

/// Unions of up to 14 alternatives.
fn alternatives(draft: &mut Draft, count: usize) {
    draft.name("a");
    let int = draft.ty(Shape::Int);
    let numbers: Vec<u32> = (0..count as u32).collect();
    for some in numbers.chunks(14).take(255) {
        draft.ty(Shape::Union(some.iter().map(|n| (0, *n, int)).collect()));
    }
}

#[cfg(test)]
mod tests {
    use super::*;

    #[test]
    fn all_fit_in_a_file() {
        for (what, most) in GROWING {
            for count in [most / 4, most / 2, most] {
                let file = filled(what, count).expect("it is known");
                assert!(file.len() <= 65_536, "{what} {count}: {}", file.len());
            }
        }
    }
}
