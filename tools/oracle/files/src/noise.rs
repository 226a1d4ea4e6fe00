//! Files without a plan.

use crate::draft;
use crate::rng::Rng;

/// Bytes of any kind, and the shortest files there are.
pub fn bytes(rng: &mut Rng) -> Vec<u8> {
    let shortest: [&[u8]; 8] = [
        b"",
        b"\n",
        b"0",
        b"01",
        b"01020020",
        b"01020020\n",
        b"06",
        b"\r\n",
    ];
    match rng.below(4) {
        0 => rng.pick(&shortest).to_vec(),
        1 => (0..rng.below(200)).map(|_| rng.byte()).collect(),
        2 => (0..rng.below(200))
            .map(|_| rng.pick(b"0123456789abcdef\n"))
            .collect(),
        _ => (0..rng.below(60)).map(|_| rng.pick(b"0102\n")).collect(),
    }
}

/// Lines of digits, each beginning with a kind.
pub fn digits(rng: &mut Rng) -> Vec<u8> {
    let mut frames = vec![draft::limits(2, 3)];
    let mut kind = 2;
    while kind <= 6 {
        let mut frame = vec![kind];
        let length = match kind {
            5 => 9 + rng.below(6),
            _ => rng.below(8),
        };
        frame.extend((0..length).map(|_| {
            let most = rng.pick(&[1, 1, 2, 4, 16, 256]);
            rng.below(most) as u8
        }));
        frames.push(frame);
        if kind == 6 || rng.chance(40) {
            kind += 1;
        }
    }
    draft::lines(&frames)
}
