//! Sound files in which one reference leads elsewhere: to itself, past the end, to what
//! another frame has named.

use crate::draft;
use crate::rng::Rng;
use crate::valid;

/// Where a frame holds references, each with the kind of frame that it names.
pub fn places(frame: &[u8]) -> Vec<(usize, u8)> {
    let every = |from: usize, width: usize, of: &[(usize, u8)]| {
        (from..frame.len())
            .step_by(width)
            .flat_map(|at| of.iter().map(move |&(past, kind)| (at + past, kind)))
            .collect()
    };
    match (frame[0], frame.get(1), frame.get(9)) {
        (3, Some(4), _) => every(2, 4, &[(0, 2), (2, 3)]),
        (3, Some(5), _) => every(2, 8, &[(0, 2), (6, 3)]),
        (4, ..) if frame.len() == 8 => vec![(1, 2), (3, 3), (6, 3)],
        (4, ..) => vec![(1, 2), (3, 3)],
        (5, _, Some(3 | 6 | 7)) => vec![(10, 2)],
        (5, _, Some(8)) => every(10, 4, &[(0, 2), (2, 5)]),
        (5, _, Some(9 | 0x10)) => vec![(10, 2), (12, 5)],
        (5, _, Some(0x0a)) => vec![(10, 5)],
        (5, _, Some(0x0b | 0x0e)) => every(10, 2, &[(0, 5)]),
        (5, _, Some(0x0c)) => statements(frame, 10),
        (5, _, Some(0x0d)) => vec![(14, 5)],
        (6, ..) => statements(frame, 1),
        _ => Vec::new(),
    }
}

fn statements(frame: &[u8], head: usize) -> Vec<(usize, u8)> {
    let mut all = vec![(head, 5)];
    let mut at = head + 2;
    while at < frame.len() {
        all.push((at + 1, 5));
        if [1, 2].contains(&frame[at]) {
            at += 3;
        } else {
            all.push((at + 3, 5));
            at += 5;
        }
    }
    all
}

pub fn references(rng: &mut Rng) -> Vec<u8> {
    let nodes = rng.between(2, 10);
    let mut frames = valid::wild_tree(rng, nodes).frames();
    let mut all = Vec::new();
    for (number, frame) in frames.iter().enumerate() {
        all.extend(
            places(frame)
                .into_iter()
                .map(|(at, kind)| (number, at, kind)),
        );
    }
    if all.is_empty() {
        return draft::lines(&frames);
    }
    let (number, at, kind) = rng.pick(&all);
    let before = frames[..number].iter().filter(|f| f[0] == kind).count() as u16;
    // Another place that names the same kind, here or in another frame.
    let alike: Vec<(usize, usize, u8)> = all.into_iter().filter(|other| other.2 == kind).collect();
    let (other, place, _) = rng.pick(&alike);
    let value = match rng.below(8) {
        0..3 => before,
        3 => before + 1,
        4 => before.wrapping_sub(1),
        5 => rng.pick(&[0, 0x0100, 0xffff]),
        _ => u16::from_be_bytes([frames[other][place], frames[other][place + 1]]),
    };
    frames[number][at..at + 2].copy_from_slice(&value.to_be_bytes());
    draft::lines(&frames)
}
