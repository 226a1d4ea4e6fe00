//! Copies of valid files with something broken.

use crate::draft::line;
use crate::rng::Rng;
use crate::valid;

fn sound(rng: &mut Rng) -> Vec<u8> {
    let draft = match rng.below(6) {
        0 => valid::grown(rng),
        1 => valid::misfits(rng),
        2 => valid::alike(rng),
        3 => valid::wild(rng),
        4 => valid::accesses(rng),
        _ => valid::tiny(rng),
    };
    draft.bytes()
}

fn split(file: &[u8]) -> Vec<Vec<u8>> {
    file.split_inclusive(|&b| b == b'\n')
        .map(<[u8]>::to_vec)
        .collect()
}

/// Characters that stand beside the digits, and some that are apt to be let through.
const NEAR: &[u8] = b"/:@`gG@AFaf09 \t\r\0x.-";

/// Single characters: changed, put in, taken out.
pub fn characters(rng: &mut Rng) -> Vec<u8> {
    let mut file = sound(rng);
    for _ in 0..rng.weighted(&[0, 70, 20, 10]) {
        let at = rng.below(file.len());
        match rng.below(8) {
            0..4 => file[at] = rng.pick(b"0123456789abcdef"),
            4 => file[at] = rng.pick(NEAR),
            5 => file[at] = file[at].to_ascii_uppercase(),
            6 => file.insert(at, rng.pick(b"0f\nA\r ")),
            _ => drop(file.remove(at)),
        }
    }
    file
}

/// One character that is no digit, or a digit spelt otherwise.
pub fn spelling(rng: &mut Rng) -> Vec<u8> {
    let mut file = valid::tiny(rng).bytes();
    let at = rng.below(file.len());
    if rng.chance(70) {
        file[at] = rng.pick(NEAR);
    } else {
        file[at] = file[at].to_ascii_uppercase();
    }
    file
}

/// Lines: dropped, doubled, swapped, moved.
pub fn lines(rng: &mut Rng) -> Vec<u8> {
    let mut of = split(&sound(rng));
    for _ in 0..rng.between(1, 2) {
        let (at, to) = (rng.below(of.len()), rng.below(of.len()));
        match rng.below(4) {
            0 => drop(of.remove(at)),
            1 => of.insert(to, of[at].clone()),
            2 => of.swap(at, to),
            _ if at + 1 < of.len() => of.swap(at, at + 1),
            _ => {}
        }
        if of.is_empty() {
            break;
        }
    }
    of.concat()
}

/// The file cut short, and ends that look alike.
pub fn ends(rng: &mut Rng) -> Vec<u8> {
    let mut file = sound(rng);
    match rng.below(8) {
        0 => file.truncate(rng.below(file.len())),
        1 => file.truncate(file.len() - 1),
        2 => file.push(b'\n'),
        3 => file.extend(b"\n\n"),
        4 => file.extend(rng.pick(&[
            b"060000\n".as_slice(),
            b"01020020\n",
            b"0278\n",
            b"0300\n",
            b"05000000000000000300\n",
            b"0\n",
            b"06000\n",
            b"zz\n",
            b"\0",
            b"0278",
            b" ",
        ])),
        5 => {
            let mut of = split(&file);
            let at = rng.below(of.len());
            of.truncate(at);
            file = of.concat();
        }
        6 => {
            let last = file.len() - 1;
            file.insert(last, b'\r');
        }
        _ => {
            let mut of = split(&file);
            of.insert(rng.below(of.len() + 1), b"\n".to_vec());
            file = of.concat();
        }
    }
    file
}

/// A frame's bytes: changed, put in, taken out, so that the line itself is sound.
pub fn frames(rng: &mut Rng) -> Vec<u8> {
    let mut of = split(&sound(rng));
    for _ in 0..rng.weighted(&[0, 80, 20]) {
        let at = rng.below(of.len());
        let mut frame = decode(&of[at]);
        if frame.is_empty() {
            continue;
        }
        let place = rng.below(frame.len());
        match rng.below(9) {
            0 => frame[place] = rng.byte(),
            1..4 => frame[place] = rng.below(8) as u8,
            4 => frame[place] = frame[place].wrapping_add(1),
            5 => frame.insert(place, rng.below(4) as u8),
            6 => drop(frame.remove(place)),
            7 => frame.truncate(place + 1),
            _ => frame.push(rng.below(3) as u8),
        }
        of[at] = line(&frame);
    }
    of.concat()
}

pub fn decode(line: &[u8]) -> Vec<u8> {
    let value = |digit: u8| (digit as char).to_digit(16).unwrap_or(0) as u8;
    line.chunks_exact(2)
        .map(|pair| value(pair[0]) << 4 | value(pair[1]))
        .collect()
}
