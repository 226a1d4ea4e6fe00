//! Card 11's test load: the file of a seed. Its tables have the same source as those of crates/testload/specs/Rule.antt, so it is no
//! second reading of docs/FORMAT.md ("Test load").

use std::fmt::Write;

/// The names of every file.
const NAMES: [&str; 13] = [
    "a", "b", "c", "d", "value", "x", "y", "z", "é", "€", "𝄞", "", "twenty-one characters",
];

// The tables, as the page has them: P is the node before, Q the one before that, 2 bytes each.

const LIMITS: [&str; 16] = [
    "020020",
    "020020",
    "020004",
    "010020",
    "030020",
    "020008",
    "000000",
    "ffffff",
    "020020",
    "020015",
    "020014",
    "010001",
    "020020",
    "030004",
    "02ffff",
    "010015",
];

const SIMPLE: [&str; 16] = [
    "040000000000010001",
    "040001000100000000",
    "0400000000",
    "04",
    "0500000000000100000001000000020001",
    "0500010000000200010000000000010000",
    "0500000000000100000001000000030001",
    "0500000000000100000002000000020001",
    "0500000000000100010001000000020001",
    "05",
    "0300000000",
    "0300000001",
    "0300010000",
    "040004000000020002",
    "040000000100010000",
    "050000ffffffff0002",
];

const COMPOUND: [&str; 16] = [
    "040000000300010004",
    "040001000400000003",
    "040000000300010005",
    "0400040003",
    "0500000000000100030001000000020004",
    "0500010000000200040000000000010003",
    "0500000000000100030001000000020005",
    "050000000000010004",
    "0300000002",
    "03ffffffff",
    "0400000005",
    "040000000000010001",
    "0500000000000100000001000000020001",
    "040002000300030001",
    "040001000100000000",
    "0500010000000200010000000000010000",
];

const PREDICATES: [&str; 16] = [
    "0005000600",
    "00060006010007",
    "00070007010008",
    "0008000800",
    "00090003010004",
    "000a0004010003",
    "00080000010001",
    "00090001010000",
    "000a0005010006",
    "000b0006010006",
    "0005000700",
    "00060008010008",
    "000c000300",
    "00040005010000",
    "0007000400",
    "00000002010005",
];

const LEAVES: [&str; 16] = [
    "00",
    "01",
    "02",
    "030005",
    "030005",
    "030005",
    "030006",
    "030006",
    "030007",
    "04",
    "04",
    "05",
    "060000",
    "07000c02",
    "08",
    "0f",
];

const PAIRS: [&str; 16] = [
    "080000Q0001P",
    "080000Q0001P",
    "080001Q0000P",
    "080001Q0000P",
    "080002Q0003P",
    "080000Q0000P",
    "080000Q0002P",
    "080004Q0002P",
    "0bQP",
    "0bQP",
    "0eQP",
    "0eQP",
    "0cQ01P",
    "0cQ01P",
    "0cQ02P",
    "0cQ02P",
];

const SINGLES: [&str; 16] = [
    "0d00000000P",
    "0d00000001P",
    "0d00000002P",
    "0d00000003P",
    "0d00000000P",
    "0d00000001P",
    "0d00010000P",
    "090000P",
    "090001P",
    "0aP",
    "100000P",
    "100001P",
    "080000P",
    "080001P",
    "0cP",
    "0cP",
];

const QUERIES: [&str; 16] = [
    "0006",
    "0007010006",
    "0003",
    "0007010003",
    "00030000070006",
    "00060000070003",
    "00070000030006",
    "0007020003010006",
    "000f0000070006040003000e01000b",
    "000e000007000600000f000b010003",
    "000701000601000e00000f0003",
    "0003030007000600000f000e02000b",
    "000b01000601000e040007000f",
    "0017000007000600000f000e010016010003",
    "0016000007000604000f000e0000170013",
    "0013000017001603000f000e010006",
];

/// The blocks of each row of `QUERIES`.
const BLOCKS: [usize; 16] = [1, 1, 1, 1, 1, 1, 1, 1, 2, 2, 2, 2, 2, 3, 3, 3];

/// How many queries the file has.
const COUNTS: [usize; 16] = [1, 1, 1, 1, 1, 1, 1, 1, 1, 1, 2, 2, 2, 3, 3, 4];

/// The first words of a seed.
fn words(seed: u32) -> Vec<u32> {
    let mut words = vec![seed];
    while words.len() < 1440 {
        let n = words.len();
        let word = if n < 55 {
            words[n - 1].wrapping_add(2_654_435_769)
        } else {
            words[n - 24].wrapping_add(words[n - 55])
        };
        words.push(word);
    }
    words
}

/// A row with its references resolved for node i.
fn row(text: &str, i: usize) -> String {
    let mut out = String::new();
    for digit in text.chars() {
        match digit {
            'P' => write!(out, "{:04x}", i - 1).expect("a string takes it"),
            'Q' => write!(out, "{:04x}", i - 2).expect("a string takes it"),
            _ => out.push(digit),
        }
    }
    out
}

/// The file of a seed.
pub fn load(seed: u32) -> Vec<u8> {
    let words = words(seed);
    let choice = |c: usize| (words[1280 + c] >> 28) as usize;
    let mut lines = vec![format!("01{}", LIMITS[choice(0)])];
    for name in NAMES {
        let hex: String = name.bytes().map(|byte| format!("{byte:02x}")).collect();
        lines.push(format!("02{hex}"));
    }
    lines.extend(["0300", "0301", "0302"].map(str::to_owned));
    lines.extend((17..20).map(|l| format!("03{}", SIMPLE[choice(l)])));
    lines.extend((20..23).map(|l| format!("03{}", COMPOUND[choice(l)])));
    lines.extend((23..27).map(|l| format!("04{}", PREDICATES[choice(l)])));
    for q in 0..COUNTS[choice(27)] {
        let v = choice(32 + 32 * q);
        for i in 0..8 * BLOCKS[v] {
            let table = match i % 8 {
                2 => PAIRS,
                3 | 5 | 6 => SINGLES,
                _ => LEAVES,
            };
            let at = 55 + 64 * q + 2 * i;
            let content = row(table[choice(33 + 32 * q + i)], i);
            lines.push(format!("05{:08x}{:08x}{content}", words[at], words[at + 1]));
        }
        lines.push(format!("06{}", QUERIES[v]));
    }
    let mut file = lines.join("\n");
    file.push('\n');
    file.into_bytes()
}
