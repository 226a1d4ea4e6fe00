//! Makes the calls that standard input holds with the builder, as bindings/python/calls.py describes them: prints a line for each that fails, and
//! then the file or the limit that stands against it.

use std::io::{self, Read};

use sigla::{Form, Limit, Node, Predicate, Query, Span, Statement, Type};

fn number<T: std::str::FromStr>(word: &str) -> T
where
    T::Err: std::fmt::Debug,
{
    word.parse().expect("a number")
}

fn text(word: &str) -> String {
    let digits = word.strip_prefix('x').expect("a text");
    let bytes = (0..digits.len()).step_by(2).map(|i| u8::from_str_radix(&digits[i..i + 2], 16).expect("digits"));
    String::from_utf8(bytes.collect()).expect("UTF-8")
}

/// The limit's name as the other builders have it.
fn kind(limit: &Limit) -> String {
    let debug = format!("{limit:?}");
    let name = debug.split('(').next().unwrap_or("");
    let mut kind = String::new();
    for c in name.chars() {
        if c.is_uppercase() && !kind.is_empty() {
            kind.push('_');
        }
        kind.push(c.to_ascii_lowercase());
    }
    kind
}

fn predicate(word: &str, made: &[Predicate]) -> Predicate {
    match word.split_at(1) {
        ("a", digits) => Predicate::absent(number(digits)),
        (_, digits) => made[number::<usize>(digits)],
    }
}

/// The parts of words with colons.
fn parts<'a>(words: &[&'a str]) -> Vec<Vec<&'a str>> {
    words.iter().map(|word| word.split(':').collect()).collect()
}

fn new_type(form: &mut Form, words: &[&str], types: &[Type], made: &[Predicate]) -> Result<Type, Limit> {
    let ty = |word: &str| types[number::<usize>(word)];
    match words {
        ["integer"] => form.integer(),
        ["string"] => form.string(),
        ["bytes"] => form.bytes(),
        ["fact", p] => form.fact(predicate(p, made)),
        ["record", rest @ ..] => {
            let fields: Vec<(String, Type)> = parts(rest).iter().map(|part| (text(part[0]), ty(part[1]))).collect();
            form.record(&fields.iter().map(|(name, ty)| (name.as_str(), *ty)).collect::<Vec<_>>())
        }
        ["union", rest @ ..] => {
            let fields: Vec<(String, u32, Type)> = parts(rest).iter().map(|part| (text(part[0]), number(part[1]), ty(part[2]))).collect();
            form.union(&fields.iter().map(|(name, disc, ty)| (name.as_str(), *disc, *ty)).collect::<Vec<_>>())
        }
        other => panic!("no type {other:?}"),
    }
}

fn taken(nodes: &mut [Option<Node>], word: &str) -> Node {
    nodes[number::<usize>(word)].take().expect("the calls name a node once")
}

fn statements(nodes: &mut [Option<Node>], words: &[&str]) -> Vec<Statement> {
    parts(words)
        .iter()
        .map(|part| {
            let left = taken(nodes, part[1]);
            let mut right = || taken(nodes, part[2]);
            match part[0] {
                "0" => Statement::Binds(left, right()),
                "1" => Statement::Holds(left),
                "2" => Statement::Denies(left),
                "3" => Statement::Differs(left, right()),
                _ => Statement::Compares(left, right()),
            }
        })
        .collect()
}

fn new_node(query: &mut Query<'_>, words: &[&str], nodes: &mut [Option<Node>], made: &[Predicate]) -> Result<Node, Limit> {
    let span = Span::new(number(words[0]), number(words[1]));
    let rest = &words[3..];
    match words[2] {
        "0" => query.integer(span),
        "1" => query.string(span),
        "2" => query.bytes(span),
        "3" => query.variable(span, &text(rest[0])),
        "4" => query.wildcard(span),
        "5" => query.never(span),
        "6" => query.prefix(span, &text(rest[0])),
        "7" => query.fuzzy(span, &text(rest[0]), number(rest[1])),
        "8" => {
            let fields: Vec<(String, Node)> = parts(rest).iter().map(|part| (text(part[0]), taken(nodes, part[1]))).collect();
            let names: Vec<String> = fields.iter().map(|field| field.0.clone()).collect();
            query.record(span, names.iter().map(String::as_str).zip(fields.into_iter().map(|field| field.1)).collect())
        }
        "9" => query.field(span, &text(rest[0]), taken(nodes, rest[1])),
        "10" => query.value(span, taken(nodes, rest[0])),
        "11" => query.either(span, rest.iter().map(|word| taken(nodes, word)).collect()),
        "12" => {
            let head = taken(nodes, rest[0]);
            query.subquery(span, head, statements(nodes, &rest[1..]))
        }
        "13" => query.fact(span, predicate(rest[0], made), taken(nodes, rest[1])),
        "14" => query.arithmetic(span, rest.iter().map(|word| taken(nodes, word)).collect()),
        "15" => query.unread(span),
        _ => query.alternative(span, &text(rest[0]), taken(nodes, rest[1])),
    }
}

fn main() -> io::Result<()> {
    let mut calls = String::new();
    io::stdin().read_to_string(&mut calls)?;
    let mut lines = (1..).zip(calls.lines().map(|line| line.split(' ').collect::<Vec<_>>())).peekable();
    let Some((_, limits)) = lines.next() else { return Ok(()) };
    let mut form = Form::new(number(limits[1]), number(limits[2]));
    let (mut types, mut made) = (Vec::new(), Vec::new());
    let tell = |line: usize, limit: &Limit| println!("{line} {}", kind(limit));
    while let Some((line, words)) = lines.next() {
        let ty = |word: &&str| types[number::<usize>(word)];
        let done = match words[..] {
            ["name", x] => form.name(&text(x)).map(|_| ()),
            ["type", ref rest @ ..] => new_type(&mut form, rest, &types, &made).map(|ty| types.push(ty)),
            ["declare", x] => form.declare(&text(x)).map(|predicate| made.push(predicate)),
            ["define", p, key, ref value @ ..] => form.define(predicate(p, &made), ty(&key), value.first().map(ty)),
            ["predicate", x, key, ref value @ ..] => form.predicate(&text(x), ty(&key), value.first().map(ty)).map(|predicate| made.push(predicate)),
            ["query"] => match form.query() {
                Ok(mut query) => {
                    let mut nodes: Vec<Option<Node>> = Vec::new();
                    let mut asked = Ok(());
                    while let Some((line, words)) = lines.next_if(|(_, words)| words[0] == "node") {
                        match new_node(&mut query, &words[1..], &mut nodes, &made) {
                            Ok(node) => nodes.push(Some(node)),
                            Err(limit) => tell(line, &limit),
                        }
                    }
                    if let Some((line, words)) = lines.next_if(|(_, words)| words[0] == "ask") {
                        let head = taken(&mut nodes, words[1]);
                        asked = query.ask(head, statements(&mut nodes, &words[2..])).map(|_| ()).map_err(|limit| (line, limit));
                    }
                    asked.err().iter().for_each(|(line, limit)| tell(*line, limit));
                    Ok(())
                }
                Err(limit) => Err(limit),
            },
            ["file"] => form.file().map(|file| print!("{}", String::from_utf8_lossy(&file))),
            ref other => panic!("no call {other:?}"),
        };
        if let Err(limit) = done {
            tell(line, &limit);
        }
    }
    Ok(())
}
