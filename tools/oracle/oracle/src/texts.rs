//! `oracle compare texts` and `oracle bench texts`: the port's two text tests beside the Rust's own.

use std::hint::black_box;
use std::time::{Duration, Instant};

use linked::texts::{HAS, characters, characters_by_table};

use crate::Done;

const NO_LIBRARY: &str = "the text tests were not there when oracle was built \
    (TEXT_LIB, or target/staticlib/libtext_calls.a at the repository's top)";

/// The Rust's own test: the number of characters, or none where the bytes are no text.
fn by_the_rust(text: &[u8]) -> Option<u64> {
    let text = std::str::from_utf8(text).ok()?;
    Some(text.chars().count() as u64)
}

/// Every string of up to three bytes, and of four those with bytes at the limits of the grammar.
pub fn compare() -> Done {
    if !HAS {
        return Err(format!("nothing to compare: {NO_LIBRARY}"));
    }
    let mut differing = 0_u64;
    let mut texts = 0_u64;
    let mut hold = |text: &[u8]| {
        let expected = by_the_rust(text);
        texts += u64::from(expected.is_some());
        let (first, table) = (characters(text), characters_by_table(text));
        if first != expected || table != expected {
            differing += 1;
            if differing <= 20 {
                println!("MISMATCH {text:02x?}: {first:?} and {table:?}, the Rust {expected:?}");
            }
        }
    };
    let mut strings = 1_u64;
    hold(&[]);
    for a in 0..=255 {
        hold(&[a]);
        for b in 0..=255 {
            hold(&[a, b]);
            for c in 0..=255 {
                hold(&[a, b, c]);
            }
        }
    }
    strings += 256 + 256 * 256 + 256 * 256 * 256;
    let mut longer = 0_u64;
    for a in LIMITS {
        for b in 0..=255 {
            for c in LIMITS {
                for d in LIMITS {
                    longer += 1;
                    hold(&[a, b, c, d]);
                }
            }
        }
    }
    println!(
        "compare texts: {strings} strings of up to three bytes and {longer} of four, {texts} of them texts, \
         {differing} mismatches"
    );
    Ok(differing == 0)
}

/// Bytes on both sides of each limit.
const LIMITS: [u8; 26] = [
    0x00, 0x7f, 0x80, 0x8f, 0x90, 0x9f, 0xa0, 0xbf, 0xc0, 0xc1, 0xc2, 0xdf, 0xe0, 0xe1, 0xec, 0xed,
    0xee, 0xef, 0xf0, 0xf1, 0xf3, 0xf4, 0xf5, 0xf7, 0xf8, 0xff,
];

/// The longest name's bytes, and how often it is tested in a round.
const LENGTH: usize = 511;
const TIMES: u32 = 2_000;

/// Names of 511 bytes of one character each, and of all four mixed.
fn long_names() -> [(&'static str, Vec<u8>); 5] {
    let units = ["a", "\u{e9}", "\u{20ac}", "\u{1d11e}"];
    let filled = |pick: &mut dyn FnMut() -> usize| {
        let mut text = String::new();
        while text.len() < LENGTH {
            let unit = units[pick()];
            let fits = text.len() + unit.len() <= LENGTH;
            text.push_str(if fits { unit } else { "a" });
        }
        text.into_bytes()
    };
    let mut number = 1_u32;
    let mut mixed = || {
        number = number.wrapping_mul(1_103_515_245).wrapping_add(12_345);
        (number >> 16) as usize % 4
    };
    [
        ("ASCII", filled(&mut || 0)),
        ("two bytes", filled(&mut || 1)),
        ("three bytes", filled(&mut || 2)),
        ("four bytes", filled(&mut || 3)),
        ("mixed", filled(&mut mixed)),
    ]
}

/// What one name takes by the first test, by the one of the table and by the Rust.
pub struct Named {
    pub name: &'static str,
    pub characters: u64,
    pub first: Duration,
    pub table: Duration,
    pub rust: Duration,
}

/// Both tests and the Rust's on long names: the quickest round of each, taken in turn.
pub fn times(rounds: u32) -> Result<Vec<Named>, String> {
    if !HAS {
        return Err(format!("nothing to time: {NO_LIBRARY}"));
    }
    let mut all = vec![];
    for (name, text) in long_names() {
        let mut best = [Duration::MAX; 3];
        let tests: [fn(&[u8]) -> Option<u64>; 3] = [characters, characters_by_table, by_the_rust];
        for _ in 0..rounds {
            for (best, test) in best.iter_mut().zip(tests) {
                let started = Instant::now();
                for _ in 0..TIMES {
                    black_box(test(black_box(&text)));
                }
                *best = (*best).min(started.elapsed() / TIMES);
            }
        }
        let counts = tests.map(|test| test(&text));
        if counts != [counts[2]; 3] {
            return Err(format!("{name}: the tests count {counts:?}"));
        }
        let [first, table, rust] = best;
        all.push(Named { name, characters: counts[2].unwrap_or(0), first, table, rust });
    }
    Ok(all)
}

pub fn bench(rounds: u32) -> Done {
    println!(
        "names of {LENGTH} bytes, ns for each; the Rust: str::from_utf8 and the characters counted"
    );
    println!(
        "{:12} {:>10} {:>8} {:>8} {:>8} {:>12} {:>11} {:>11}",
        "text", "characters", "first", "table", "Rust", "table/first", "first/Rust", "table/Rust"
    );
    for one in times(rounds)? {
        let [first, table, rust] = [one.first, one.table, one.rust].map(|time| time.as_secs_f64() * 1e9);
        println!(
            "{:12} {:10} {first:8.0} {table:8.0} {rust:8.0} {:12.2} {:11.2} {:11.2}",
            one.name,
            one.characters,
            table / first,
            first / rust,
            table / rust
        );
    }
    Ok(true)
}
