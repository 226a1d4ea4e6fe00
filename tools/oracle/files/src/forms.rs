//! Whole forms: several queries over one schema, and their faults.

use crate::draft::{self, Draft, Expr, Stmt};
use crate::faults::spoil_line;
use crate::grow::{self, CALM, Taste};
use crate::limits::{self, MOST_VISITS};
use crate::references;
use crate::rng::Rng;
use crate::valid;

/// The most queries of a file, and the most nodes of a query.
const QUERIES: usize = 64;
const NODES: usize = 512;

/// A few queries of one sort or of several; one alone now and then.
pub fn forms(rng: &mut Rng) -> Vec<u8> {
    let count = rng.weighted(&[0, 1, 5, 3, 2, 1, 1]);
    draft::lines(&some(rng, count, 12).form_frames())
}

/// Thirty queries, or as many as a file may have, one fewer and one more.
pub fn full(rng: &mut Rng) -> Vec<u8> {
    let count = rng.pick(&[30, QUERIES - 1, QUERIES, QUERIES + 1]);
    draft::lines(&some(rng, count, 3).form_frames())
}

/// So many closed queries over one schema, each of about so many nodes.
fn some(rng: &mut Rng, count: usize, nodes: usize) -> Draft {
    let mut draft = Draft::new();
    let sort = rng.below(4);
    if sort == 0 {
        valid::equation_names(&mut draft);
    } else {
        grow::schema(rng, &mut draft);
    }
    for _ in 0..count {
        match if sort == 3 { rng.between(1, 2) } else { sort } {
            0 => valid::equations(rng, &mut draft, 2 + nodes / 4),
            1 => {
                let taste = Taste {
                    misfits: rng.pick(&[0, 3, 20]),
                    poison: rng.pick(&[10, 70]),
                    scopes: rng.pick(&[8, 45]),
                    statements: 1 + nodes / 4,
                    nodes: 2 * nodes,
                    ..CALM
                };
                draft = grow::over(rng, draft, taste);
            }
            _ => {
                let nodes = rng.between(1, nodes);
                valid::wild_query(rng, &mut draft, nodes);
            }
        }
        draft.close();
    }
    draft
}

/// So many queries that mean something, over one schema: for questions of time.
pub fn grown(rng: &mut Rng, count: usize) -> Vec<u8> {
    let mut draft = Draft::new();
    grow::schema(rng, &mut draft);
    for _ in 0..count {
        let taste = Taste {
            nodes: 24,
            statements: 3,
            ..CALM
        };
        draft = grow::over(rng, draft, taste);
        draft.close();
    }
    draft::lines(&draft.form_frames())
}

/// Where the queries' own frames start, each with its last one's place.
fn places(frames: &[Vec<u8>]) -> Vec<(usize, usize)> {
    let mut from = frames.iter().position(|f| f[0] == 5).unwrap_or(0);
    let mut all = Vec::new();
    for (at, frame) in frames.iter().enumerate() {
        if frame[0] == 6 {
            all.push((from, at));
            from = at + 1;
        }
    }
    all
}

/// A form with one fault, in its first, its last or any of its queries.
pub fn faults(rng: &mut Rng) -> Vec<u8> {
    let count = match rng.below(14) {
        0 => 1,
        1 => 30,
        2 => QUERIES - 1,
        3 => QUERIES,
        4 => QUERIES + 1,
        _ => rng.between(2, 4),
    };
    let mut frames = some(rng, count, if count > 4 { 2 } else { 6 }).form_frames();
    let queries = places(&frames);
    let which = match rng.below(3) {
        0 => 0,
        1 => queries.len() - 1,
        _ => rng.below(queries.len()),
    };
    let (from, to) = queries[which];
    let at = rng.between(from, to);
    match rng.below(11) {
        0 => {
            // Another kind after a query, and what is left of the form after it.
            let other = rng.pick(&[
                b"\x01\x02\x00\x20".as_slice(),
                b"\x02new",
                b"\x02",
                b"\x03\x00",
                b"\x04\x00\x00\x00\x00\x00",
                b"\x07",
                b"\x00",
                b"\x06\x00\x00",
            ]);
            frames.insert(to + 1, other.to_vec());
        }
        1 => {
            let again = frames[to].clone();
            frames.insert(to + 1, again);
        }
        2 => {
            // Nodes that no query closes.
            for _ in 0..rng.between(1, 3) {
                frames.push(draft::node(0, 1, &Expr::Int));
            }
        }
        3 | 4 => elsewhere(rng, &mut frames, from, to),
        5 => {
            let frame = &mut frames[at];
            match rng.below(4) {
                0 => frame.push(rng.below(6) as u8),
                1 => drop(frame.pop()),
                2 => {
                    let place = rng.below(frame.len());
                    frame[place] = rng.below(8) as u8;
                }
                _ => frame.truncate(1),
            }
        }
        6 => {
            let mut lines: Vec<Vec<u8>> = frames.iter().map(|f| draft::line(f)).collect();
            lines[at] = spoil_line(rng, std::mem::take(&mut lines[at]));
            return lines.concat();
        }
        7 => drop(frames.remove(at)),
        8 => frames.truncate(at),
        9 => one_more(rng, &mut frames),
        _ => {
            let with = rng.below(frames.len());
            frames.swap(at, with);
        }
    }
    draft::lines(&frames)
}

/// A query names a node that it has not, or that was named before: mostly one of another query.
fn elsewhere(rng: &mut Rng, frames: &mut [Vec<u8>], from: usize, to: usize) {
    let mut all = Vec::new();
    for (number, frame) in frames.iter().enumerate().take(to + 1).skip(from) {
        let nodes = references::places(frame).into_iter().filter(|p| p.1 == 5);
        all.extend(nodes.map(|(at, _)| (number, at)));
    }
    let (number, at) = rng.pick(&all);
    let own = (number - from) as u16;
    let value = match rng.below(6) {
        0..3 => own,
        3 => own + 1,
        4 => (to - from) as u16,
        _ => rng.below(own as usize + 1) as u16,
    };
    frames[number][at..at + 2].copy_from_slice(&value.to_be_bytes());
}

/// Fills the form up to its last query, and puts one more after it that may have faults of its own.
fn one_more(rng: &mut Rng, frames: &mut Vec<Vec<u8>>) {
    let have = frames.iter().filter(|f| f[0] == 6).count();
    for _ in have..QUERIES {
        frames.push(draft::node(0, 1, &Expr::Int));
        frames.push(draft::query(0, &[]));
    }
    let node = match rng.below(4) {
        0 => vec![],
        1 => vec![draft::node(0, 1, &Expr::Var(0xffff))],
        2 => vec![vec![5, 0]],
        _ => vec![draft::node(0, 1, &Expr::Int)],
    };
    frames.extend(node);
    match rng.below(7) {
        0 => {}
        1 => frames.push(vec![6]),
        2 => frames.push(vec![6, 0, 0, 9]),
        3 => frames.push(draft::query(7, &[])),
        4 => frames.push(draft::query(0, &[Stmt::Implicit(0)])),
        5 => frames.push(vec![3, 0]),
        _ => frames.push(draft::query(0, &[])),
    }
}

/// Queries of few visits each, for runs with a lower limit.
pub fn few_visits(rng: &mut Rng) -> Vec<u8> {
    let mut draft = Draft::new();
    for _ in 0..rng.between(2, 5) {
        if rng.chance(30) {
            draft.head = draft.node(Expr::Int);
        } else {
            let target = 40 + rng.below(600) as u64;
            spent(rng, &mut draft, target);
        }
        draft.close();
    }
    draft::lines(&draft.form_frames())
}

fn spent(rng: &mut Rng, draft: &mut Draft, target: u64) {
    let hidden = rng.chance(75);
    limits::spend(rng, draft, target, hidden);
    draft.head = draft.node(Expr::Int);
}

/// One or two queries at their last visits, among others; an answer that is full before them, now and
/// then, and a bad line after them.
pub fn visits(rng: &mut Rng) -> Vec<u8> {
    let mut draft = Draft::new();
    if rng.chance(40) {
        let size = rng.pick(&[60_000, 65_000, 65_526, 66_000]);
        limits::answer_over(&mut draft, size);
        draft.close();
    }
    let before = rng.pick(&[0, 1, 2, 28, 60]);
    for place in 0..before + rng.between(1, 3) {
        if place < before.min(2) {
            let target = rng.pick(&[100, 5_000, MOST_VISITS / 2]);
            spent(rng, &mut draft, target);
        } else if place == before {
            let target = MOST_VISITS - 1 + rng.below(3) as u64;
            spent(rng, &mut draft, target);
        } else if rng.chance(50) {
            // Whoever runs it after one that was stopped charges for it.
            spent(rng, &mut draft, 100);
        } else {
            draft.head = draft.node(Expr::Int);
        }
        draft.close();
    }
    let mut frames = draft.form_frames();
    if rng.chance(35) {
        frames.push(vec![5]);
    }
    draft::lines(&frames)
}

/// As many nodes as a query may have, one fewer and one more, in each of two or three.
pub fn nodes(rng: &mut Rng) -> Vec<u8> {
    let mut draft = Draft::new();
    draft.name("a");
    let count = rng.between(2, 3);
    for place in 0..count {
        let nodes = match place + 1 == count {
            true => NODES - 1 + rng.below(3),
            false => NODES - rng.below(2),
        };
        for n in 0..nodes {
            draft.node(if n % 2 == 0 { Expr::Int } else { Expr::Var(0) });
        }
        draft.head = rng.pick(&[0, nodes - 1, nodes]).min(nodes - 1) as u16;
        draft.close();
    }
    let mut frames = draft.form_frames();
    if rng.chance(30) {
        let last = frames.len() - 2;
        frames[last] = rng
            .pick(&[
                b"\x05".as_slice(),
                b"\x05\x00\x00\x00\x00\x00\x00\x00\x00\x11",
            ])
            .to_vec();
    }
    draft::lines(&frames)
}

/// Answers of two or more queries that are around 65,536 bytes together.
pub fn answers(rng: &mut Rng) -> Vec<u8> {
    let size = 65_535 + rng.below(3);
    let count = rng.pick(&[2, 3, 30, QUERIES]);
    let most = if count > 3 { 12 } else { 3_000 };
    let mut sizes: Vec<usize> = (0..count).map(|_| 9 * rng.between(1, most)).collect();
    // One of them takes what is left.
    let large = rng.below(count);
    sizes[large] = 0;
    // A line 0b before each query's and one of its visits after them.
    let around = 7 + limits::VISITS_LINE;
    sizes[large] = size - around * count - sizes.iter().sum::<usize>();
    let mut draft = Draft::new();
    for size in sizes {
        limits::answer_over(&mut draft, size);
        draft.close();
    }
    draft::lines(&draft.form_frames())
}
