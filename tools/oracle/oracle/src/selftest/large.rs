//! Types larger than the Rust can hold: what is left out, and what is still answered.

use judge::{Answer, File, Limits, Node, Predicate, Query, Shape, Stmt, Tree, Type};

use super::{Group, refusals};

pub fn run(group: &mut Group) {
    let left_out = Answer::LeftOut(judge::TOO_LARGE);

    // p _ over a key that doubles: the Rust copies the key out.
    let ran = group.answer(&judge::encode(&doubled_key(60)));
    group.same("a key of 2^60 parts", ran.answer, left_out.clone());
    let ran = group.answer(&judge::encode(&doubled_key(12)));
    group.same("a key of 2^12 parts", ran.answer, Answer::Refused(12));
    group.same("its visits", ran.visits, vec![0]);
    let ran = group.answer(&judge::encode(&doubled_key(8)));
    let fits = matches!(ran.answer, Answer::Lines(_));
    group.same("a key of 2^8 parts fits", fits, true);

    // p a: binding the variable a walks the whole key.
    for (file, number) in files() {
        group.refused("a small file", &file, number);
    }
    at_the_limits(group);

    // The same schema, not used: nothing is copied.
    let mut unused = doubled_key(60);
    unused.trees[0].nodes[1].shape = Shape::Error;
    let ran = group.answer(&judge::encode(&unused));
    group.same(
        "a key of 2^60 parts, not used",
        ran.answer,
        Answer::Lines(b"070000ff\n07000107\n0900000000\n".to_vec()),
    );

    // x0 = {a = x1, b = x1} and so on, then x0 < error: one visit, and then `compare` writes the
    // type out before it is looked at, so neither visits nor answer can be had from the Rust.
    let ran = group.answer(&judge::encode(&compared(60, Shape::Error)));
    group.same("2^60 parts compared", ran.answer, left_out);
    let ran = group.answer(&judge::encode(&compared(10, Shape::Error)));
    group.same("2^10 parts compared", ran.answer, Answer::Refused(12));
    // The binds, four visits each; unify; orderable at each part of the full tree.
    group.same("its visits", ran.visits, vec![10 * 4 + 1 + 2047]);

    // With x0 < x0 unify walks both sides, part by part.
    let ran = group.answer(&judge::encode(&compared(10, Shape::Var(0))));
    group.same("its visits", ran.visits, vec![10 * 4 + 2047 + 2047]);
    let ran = group.answer(&judge::encode(&compared(60, Shape::Var(0))));
    group.same("2^60 parts unified", ran.answer, Answer::Refused(11));
}

/// The visits and the length that the small files were made for.
fn at_the_limits(group: &mut Group) {
    let ran = group.answer(&judge::encode(&exact(MOST_VISITS)));
    group.same("as many visits as allowed", ran.visits, vec![MOST_VISITS]);
    let with = |bytes| {
        let limits = Limits {
            bytes,
            ..Limits::default()
        };
        judge::answer(&judge::encode(&one_byte_longer()), &limits).answer
    };
    let fits = matches!(with(65_537), Answer::Lines(lines) if lines.len() == 65_537);
    group.same("an answer of 65,537 bytes", fits, true);
}

/// Small files and the numbers that they get: 12 and 11, far past the limits and exactly at them.
pub fn files() -> Vec<(Vec<u8>, u8)> {
    let mut walked = doubled_key(20);
    walked.trees[0].nodes[0].shape = Shape::Var(0);
    [
        (doubled_key(12), 12),
        (walked, 11),
        // As many visits as allowed, and one more.
        (exact(MOST_VISITS), 12),
        (exact(MOST_VISITS + 1), 11),
        (one_byte_longer(), 12),
    ]
    .into_iter()
    .map(|(file, number)| (judge::encode(&file), number))
    .collect()
}

const MOST_VISITS: u64 = 1_048_576;

/// A file that takes so many visits, some by each rule of counting:
///
/// - z = y, y = 1, y = 1: an unknown bound to another, and a chain that is no visit;
/// - w = {a = w, b = 1}: occurs ends where it finds the unknown;
/// - {a = q _, b = 1} < {a = q _, b = 1}: orderable ends at the fact, q being absent;
/// - 1 + 1;
/// - values of two unions compared, that differ at discriminant 1 of 1, 2 and 80000001, and of two
///   that agree at 1 before one lacks 3;
/// - p x, where p's key is large enough to make up the rest and has a union in it.
fn exact(visits: u64) -> File {
    const STATEMENTS: u64 = (2 + 2 + 1) + 3 + (3 + 2) + 2 + 2 + 2;
    // One for unify at p x and two for occurs at the union, the others at each other part.
    let mut file = key_of(&depths(visits - STATEMENTS - 3));
    file.trees[0].nodes[0].shape = Shape::Var(0);
    let [a, b, w, y, z] = [0, 1, 2, 3, 4];
    let unions = add_unions(&mut file);

    let mut nodes = Nodes(std::mem::take(&mut file.trees[0].nodes));
    let mut body = vec![];
    let (left, right) = (nodes.push(Shape::Var(z)), nodes.push(Shape::Var(y)));
    body.push(Stmt::Bind(left, right));
    for _ in 0..2 {
        let (left, right) = (nodes.push(Shape::Var(y)), nodes.push(Shape::Int));
        body.push(Stmt::Bind(left, right));
    }
    let (inner, one) = (nodes.push(Shape::Var(w)), nodes.push(Shape::Int));
    let right = nodes.push(Shape::Record(vec![(a, inner), (b, one)]));
    let left = nodes.push(Shape::Var(w));
    body.push(Stmt::Bind(left, right));
    let sides = [(); 2].map(|()| {
        let key = nodes.push(Shape::Wildcard);
        let (fact, one) = (nodes.push(Shape::Fact(9, key)), nodes.push(Shape::Int));
        nodes.push(Shape::Record(vec![(a, fact), (b, one)]))
    });
    body.push(Stmt::Compare(sides[0], sides[1]));
    for pair in unions.chunks(2) {
        let values = [pair[0], pair[1]].map(|predicate| {
            let key = nodes.push(Shape::Wildcard);
            let fact = nodes.push(Shape::Fact(u32::from(predicate), key));
            nodes.push(Shape::Value(fact))
        });
        body.push(Stmt::Compare(values[0], values[1]));
    }
    let operands = [(); 2].map(|()| nodes.push(Shape::Int));
    let sum = nodes.push(Shape::Arith(operands.to_vec()));
    body.push(Stmt::Implicit(sum));

    file.trees[0].nodes = nodes.0;
    file.trees[0].query.body = body;
    file
}

/// Gives p's key a field that is a union, and adds predicates whose values are unions: two that
/// differ at the least discriminant, and two that each lack one of the other's.
fn add_unions(file: &mut File) -> [u16; 4] {
    let [a, b, c] = [0, 1, 2];
    let (int, record) = (0, 1);
    let key = file.types.pop();
    let high = 0x8000_0001;
    let unions = [
        vec![(a, 2, int), (b, high, int), (c, 1, int)],
        vec![(a, 2, int), (b, high, int), (c, 1, record)],
        vec![(a, 1, int), (b, 3, int)],
        vec![(a, 1, int), (b, 4, int)],
        vec![(a, 0, int)],
    ];
    let first = file.types.len() as u16;
    file.types.extend(unions.map(Type::Union));
    let Some(Type::Record(mut fields)) = key else {
        unreachable!("p's key is the last type and a record");
    };
    let name = file.names.len() as u16;
    file.names.push(b"union".to_vec());
    fields.push((name, first + 4));
    file.types.push(Type::Record(fields));
    file.predicates[0].key = first + 5;
    [0, 1, 2, 3].map(|number| {
        file.predicates.push(Predicate {
            name: 0,
            key: int,
            value: Some(first + number),
        });
        file.predicates.len() as u16 - 1
    })
}

/// p _ with an answer of 65,537 bytes: 17 for p's node, 11 for the visits, and for the key's 7 and the
/// 65,502 of a record of four fields, each 16 times 2 to its depth less 10.
fn one_byte_longer() -> File {
    key_of(&[11, 10, 9, 9])
}

/// Depths of full binary trees that make up, with a record over them, so many parts.
fn depths(parts: u64) -> Vec<u16> {
    // With k trees the powers of two 2^(depth + 1) add up to this.
    for k in 1..=24 {
        let sum = parts - 1 + k;
        let mut powers: Vec<u32> = (0..32).filter(|bit| sum >> bit & 1 == 1).collect();
        while (powers.len() as u64) < k && powers.last().is_some_and(|power| *power > 1) {
            let power = powers.pop().expect("just seen");
            powers.extend([power - 1; 2]);
        }
        if powers.len() as u64 == k && powers[0] > 0 {
            return powers.iter().map(|power| *power as u16 - 1).collect();
        }
    }
    unreachable!("so many trees suffice for the numbers asked for")
}

/// Nodes that get the next number.
struct Nodes(Vec<Node>);

impl Nodes {
    fn push(&mut self, shape: Shape) -> u16 {
        self.0.push(Node {
            start: 0,
            end: 0,
            shape,
        });
        self.0.len() as u16 - 1
    }
}

/// p _, where p's key is a record of full binary trees of these depths.
pub fn key_of(depths: &[u16]) -> File {
    let deepest = *depths.iter().max().expect("one at least");
    let mut file = doubled_key(deepest);
    let names = (0..depths.len().max(5)).map(|name| vec![b'a' + name as u8]);
    file.names = names.collect();
    let fields = (0..).zip(depths.iter().copied());
    file.types.push(Type::Record(fields.collect()));
    file.predicates[0].key = deepest + 1;
    file
}

/// p _, where p's key is a record of two of a record of two and so on.
pub fn doubled_key(depth: u16) -> File {
    let mut types = vec![Type::Int];
    for below in 0..depth {
        types.push(Type::Record(vec![(0, below), (1, below)]));
    }
    let node = |shape| Node {
        start: 0,
        end: 0,
        shape,
    };
    File {
        max_distance: 2,
        max_term: 32,
        names: vec![b"a".to_vec(), b"b".to_vec()],
        types,
        predicates: vec![Predicate {
            name: 0,
            key: depth,
            value: None,
        }],
        trees: vec![Tree {
            nodes: vec![node(Shape::Wildcard), node(Shape::Fact(0, 0))],
            query: Query {
                head: 1,
                body: vec![],
            },
        }],
    }
}

/// A chain that doubles, and its first unknown compared with another node.
fn compared(count: u16, other: Shape) -> File {
    let mut file = refusals::shrinking(count);
    let at = file.trees[0].nodes.len() as u16;
    for shape in [Shape::Var(0), other] {
        file.trees[0].nodes.push(Node {
            start: 0,
            end: 0,
            shape,
        });
    }
    file.trees[0].query.body.push(Stmt::Compare(at, at + 1));
    file
}
