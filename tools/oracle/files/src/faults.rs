//! Lines with two faults, faults on lines that follow each other, and the order of the
//! kinds.

use crate::draft::{self, Expr, Stmt, short};
use crate::rng::Rng;

/// Each pair of kinds, and each kind at the start, with what comes before and after.
pub fn kinds(rng: &mut Rng) -> Vec<u8> {
    let mut file = Vec::new();
    let (first, second) = (rng.between(1, 6) as u8, rng.between(0, 8) as u8);
    if rng.chance(80) {
        for kind in 1..=first {
            // What a later frame refers to stays, the rest may be left out.
            if kind == first || [1, 5].contains(&kind) || rng.chance(85) {
                file.push(minimal(kind, &file));
            }
        }
    }
    file.push(minimal(second, &file));
    if rng.chance(50) && second < 6 {
        file.push(minimal(6, &file));
    }
    draft::lines(&file)
}

/// The least frame of a kind after those frames.
fn minimal(kind: u8, before: &[Vec<u8>]) -> Vec<u8> {
    let count = |of: u8| before.iter().filter(|f| f[0] == of).count();
    match kind {
        1 => draft::limits(2, 32),
        2 => draft::name(format!("{}", count(2)).as_bytes()),
        4 => draft::predicate(0, 0, None),
        5 => draft::node(0, 3, &Expr::Int),
        6 => {
            // Nodes are counted from the query before.
            let own = before.iter().rev().take_while(|f| f[0] != 6);
            let nodes = own.filter(|f| f[0] == 5).count();
            draft::query(nodes.saturating_sub(1) as u16, &[])
        }
        other => vec![other, 0],
    }
}

/// What a faulty frame is put after: counts of names, types, predicates and nodes.
struct World {
    frames: Vec<Vec<u8>>,
    counts: [usize; 4],
}

fn world(full: Option<u8>, last: u8) -> World {
    let mut counts = [2, 2, 1, 4];
    if let Some(kind @ 2..=5) = full {
        counts[kind as usize - 2] = [256, 256, 128, 512][kind as usize - 2];
    }
    let mut frames = vec![draft::limits(2, 32)];
    for kind in 2..=last.min(5) {
        for n in 0..counts[kind as usize - 2] {
            frames.push(match kind {
                2 => draft::name(format!("{n}").as_bytes()),
                3 => vec![3, n as u8 % 3],
                4 => draft::predicate(0, 0, None),
                _ => draft::node(n as u32, 0, &Expr::Int),
            });
        }
    }
    if last < 5 {
        // Frames that are not there yet cannot be referred to.
        for kind in last.max(1) + 1..=5 {
            counts[kind as usize - 2] = 0;
        }
    }
    World { frames, counts }
}

/// A frame of a kind with those of the faults 6 to 10 that it can have at once.
fn content(rng: &mut Rng, kind: u8, faults: &[u8], world: &World) -> Vec<u8> {
    let has = |fault| faults.contains(&fault);
    let [names, types, _, nodes] = world.counts.map(|count| count as u16);
    let beyond = |rng: &mut Rng, count: u16| count + rng.pick(&[0, 0, 1, 0x100, 0x7000]);
    match kind {
        2 if has(7) => {
            draft::name(rng.pick(&[b"\xff".as_slice(), b"\xc0\x80", b"a\x80", b"\xe1\x80"]))
        }
        2 if has(8) => draft::name(b"1"),
        2 => draft::name(b"new"),
        3 if has(10) && rng.chance(50) => {
            let mut frame = vec![3, 5];
            for disc in [7u32, rng.pick(&[7, 8]), 7] {
                short(&mut frame, 0);
                frame.extend(disc.to_be_bytes());
                short(&mut frame, 0);
            }
            if has(9) {
                let at = rng.pick(&[2, 8, 18, 24]);
                let count = if at % 8 == 2 { names } else { types };
                frame[at..at + 2].copy_from_slice(&beyond(rng, count).to_be_bytes());
            }
            spoil_length(rng, frame, has(6))
        }
        3 if has(10) || has(9) || has(6) => {
            let mut frame = vec![3, 4];
            for name in [0, if has(10) { 0 } else { 1 }] {
                short(&mut frame, name);
                short(&mut frame, 1);
            }
            if has(9) {
                let at = rng.pick(&[2, 4, 6, 8]);
                let count = if at % 4 == 2 { names } else { types };
                frame[at..at + 2].copy_from_slice(&beyond(rng, count).to_be_bytes());
            }
            spoil_length(rng, frame, has(6))
        }
        3 => vec![3, 1],
        4 => {
            let mut frame = draft::predicate(0, 1, rng.chance(50).then_some(0));
            if has(9) {
                let (at, count) = rng.pick(&[(1, names), (3, types)]);
                frame[at..at + 2].copy_from_slice(&beyond(rng, count).to_be_bytes());
            }
            if has(6) && rng.chance(50) {
                frame[5] = rng.pick(&[2, 0xff]);
                return frame;
            }
            spoil_length(rng, frame, has(6))
        }
        5 => {
            let node = if has(9) { beyond(rng, nodes) } else { 1 };
            let name = if has(9) && rng.chance(50) {
                beyond(rng, names)
            } else {
                1
            };
            let expr = match rng.below(11) {
                8 => Expr::Var(name),
                9 => Expr::Prefix(name),
                10 => Expr::Fuzzy(name, 1),
                0 => Expr::Record(vec![(0, 0), (name, node)]),
                1 => Expr::Disjunction(vec![0, node]),
                2 => Expr::Arith(if has(9) { vec![0, 0] } else { vec![0] }),
                3 => Expr::Subquery(node, vec![Stmt::Bind(0, 2)]),
                4 => Expr::Subquery(0, vec![Stmt::Compare(node, 2)]),
                5 => Expr::Fact(0xffff, node),
                6 => Expr::Select(name, node),
                _ => Expr::Key(name, node),
            };
            let mut frame = draft::node(1, 2, &expr);
            if has(6) && rng.chance(20) {
                frame[9] = rng.pick(&[0x11, 0x80, 0xff]);
                return frame;
            }
            if has(6) && matches!(expr, Expr::Subquery(..)) {
                frame.push(rng.pick(&[5, 0xff, 0]));
                return frame;
            }
            spoil_length(rng, frame, has(6))
        }
        _ => {
            let node = if has(9) {
                rng.pick(&[nodes, 0, 0xffff])
            } else {
                1
            };
            let mut frame = draft::query(0, &[Stmt::Implicit(node), Stmt::Bind(2, 3)]);
            if has(6) {
                frame.extend(rng.pick(&[
                    b"\x05".as_slice(),
                    b"\x01",
                    b"\x00\x00\x00",
                    b"\x05\x00\x00\x00\x00",
                ]));
            }
            frame
        }
    }
}

fn spoil_length(rng: &mut Rng, mut frame: Vec<u8>, spoil: bool) -> Vec<u8> {
    if spoil {
        if rng.chance(50) {
            frame.push(0);
        } else {
            frame.pop();
        }
    }
    frame
}

/// A line that is no line: refusal 3 in one of its forms.
pub fn spoil_line(rng: &mut Rng, mut line: Vec<u8>) -> Vec<u8> {
    let last = line.len() - 1;
    let at = rng.below(last);
    match rng.below(6) {
        0 => line.insert(last, b'0'),
        1 => line.insert(last, b'\r'),
        2 => line[at] = rng.pick(b"ABCDEFg/:`\0"),
        3 => drop(line.remove(at)),
        4 => {
            // Too long by one byte, with digits that are sound.
            line.truncate(last);
            line.resize(1026, b'0');
            line.push(b'\n');
        }
        _ => line[last - 1] = b'G',
    }
    line
}

/// One line with the faults of a pair, as far as a line can have both.
pub fn two_faults(rng: &mut Rng) -> Vec<u8> {
    let first = rng.between(3, 10) as u8;
    let second = rng.between(3, 10) as u8;
    let kind = kind_for(rng, &[first, second]);
    let rest = rng.chance(70);
    let mut file = faulty(rng, kind, &[first, second]);
    if rest {
        file.extend(b"060000\n");
    }
    file
}

/// A kind whose frame can have those faults, as far as there is one.
fn kind_for(rng: &mut Rng, faults: &[u8]) -> u8 {
    let has = |fault| faults.contains(&fault);
    match () {
        _ if has(10) => 3,
        _ if has(7) || has(8) => 2,
        _ if has(5) => rng.between(2, 5) as u8,
        _ => rng.between(3, 6) as u8,
    }
}

fn faulty(rng: &mut Rng, kind: u8, faults: &[u8]) -> Vec<u8> {
    let has = |fault| faults.contains(&fault);
    let misplaced = has(4);
    let last = if misplaced { 5 } else { kind };
    let full = has(5).then_some(kind);
    let mut world = world(full, last);
    if misplaced && (kind > 4 || rng.chance(20)) {
        world.frames.push(draft::query(3, &[]));
    }
    let mut frame = content(rng, kind, faults, &world);
    if misplaced && rng.chance(20) {
        world = self::world(full, kind);
        frame[0] = rng.pick(&[0, 7, 0xff, 1]);
    }
    let mut file = draft::lines(&world.frames);
    let line = draft::line(&frame);
    if has(3) {
        file.extend(spoil_line(rng, line));
        if rng.chance(10) {
            file.pop();
        }
    } else {
        file.extend(line);
    }
    file
}

/// A fault on one line and another on the next.
pub fn one_after_another(rng: &mut Rng) -> Vec<u8> {
    let first = rng.between(3, 10) as u8;
    let kind = kind_for(rng, &[first]);
    let mut file = faulty(rng, kind, &[first]);
    let world = world(None, 5);
    let kind = rng.between(kind as usize, 6) as u8;
    let second = rng.between(3, 10) as u8;
    let line = draft::line(&content(rng, kind, &[second], &world));
    if second == 3 {
        file.extend(spoil_line(rng, line));
    } else {
        file.extend(line);
    }
    if rng.chance(30) {
        file.extend(b"060000\n");
    }
    file
}

/// One frame of each shape with a length, shape, flag or reference beside the right one.
pub fn one_frame(rng: &mut Rng) -> Vec<u8> {
    let kind = rng.between(2, 6) as u8;
    let world = world(None, kind);
    let mut frames = world.frames;
    let mut frame = match kind {
        3 => {
            let mut frame = vec![3, rng.below(8) as u8];
            frame.extend((0..rng.pick(&[0, 0, 1, 2, 4, 8, 16])).map(|_| rng.below(2) as u8));
            frame
        }
        4 => {
            let (name, key) = (rng.below(3) as u16, rng.below(3) as u16);
            let mut frame = draft::predicate(name, key, rng.chance(50).then_some(1));
            if rng.chance(20) {
                frame[5] = rng.below(4) as u8;
            }
            frame
        }
        5 => {
            let shape = rng.below(19);
            let mut frame = vec![5, 0, 0, 0, 1, 0, 0, 0, 2, shape as u8];
            // The length that the shape wants, where it wants one.
            let wanted = [0, 0, 0, 2, 0, 0, 2, 3, 4, 4, 2, 4, 5, 4, 4, 0, 4, 0, 0];
            let length = if rng.chance(70) {
                wanted[shape]
            } else {
                rng.pick(&[0, 0, 1, 2, 2, 3, 4, 4, 5, 6, 7, 8])
            };
            frame.extend((0..length).map(|at| if at % 2 == 1 { rng.below(6) as u8 } else { 0 }));
            frame
        }
        6 => {
            let mut frame = vec![6, 0, rng.below(5) as u8];
            for _ in 0..rng.below(3) {
                frame.push(rng.below(6) as u8);
                for _ in 0..rng.between(1, 2) {
                    short(&mut frame, rng.below(5) as u16);
                }
            }
            frame
        }
        _ => draft::name(rng.pick(&[b"".as_slice(), b"0", b"00", b"N", b"n"])),
    };
    if rng.chance(20) {
        frame = spoil_length(rng, frame, true);
    }
    let shape = frame.clone();
    frames.push(frame);
    if kind < 5 {
        frames.push(draft::node(0, 3, &Expr::Int));
    }
    if kind == 2 && rng.chance(30) {
        frames.insert(1, draft::name(b""));
    }
    if kind == 5 && rng.chance(80) {
        // The query names the new node, and another that is free.
        frames.push(draft::query(4, &[Stmt::Implicit(3)]));
    } else if kind < 6 {
        frames.push(draft::query(0, &[]));
    }
    if rng.chance(3) {
        let at = rng.below(frames.len());
        frames.insert(at, shape);
    }
    draft::lines(&frames)
}

/// The limits' frame in every length.
pub fn first_frame(rng: &mut Rng) -> Vec<u8> {
    let mut frames = vec![vec![1; rng.between(1, 7)]];
    if rng.chance(50) {
        frames[0] = draft::limits(rng.byte(), rng.next() as u16);
    }
    frames.push(draft::node(0, 3, &Expr::Int));
    frames.push(draft::query(0, &[]));
    draft::lines(&frames)
}
