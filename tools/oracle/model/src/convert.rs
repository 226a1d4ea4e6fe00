//! The converters of card 6, a second time: lines of text, into which four digits are put or from which they
//! are taken. What a file says is not looked at once it was read.

use crate::mutation::Switch;
use crate::reader::{self, NARROW, WIDE};
use crate::{Answer, Limits};

/// Mistakes in a conversion, by name.
pub const CONVERSIONS: [&str; 16] = [
    "out: the file is copied",
    "out: the zeros stand after the number",
    "out: a type's number keeps two bytes",
    "out: a node's number keeps two bytes",
    "out: the wide edition is read",
    "back: the narrow edition is read",
    "back: the number's low half is cut out",
    "back: 14 is asked of types alone",
    "back: 14 is asked of nodes alone",
    "back: 14 is asked of the first query's nodes alone",
    "back: 14 on the line's turn, before a later line's refusal",
    "back: a large number is cut to its low half",
    "back: 14 after 12",
    "12 by the file's own length",
    "12 one byte late",
    "12 where the output is over 65,536 bytes whatever is lent",
];

/// A line of text and where its predicate's number stands, 0 for none.
fn place(line: &[u8]) -> usize {
    let kind = &line[..2];
    if kind == b"03" && &line[2..4] == b"03" {
        4
    } else if kind == b"05" && &line[18..20] == b"0d" {
        20
    } else {
        0
    }
}

/// The file in the other edition, or the refusal's number; `out` from the narrow one, else back to it.
/// `mistake` is a place in [`CONVERSIONS`].
pub fn convert(file: &[u8], out: bool, limits: &Limits, mistake: Option<usize>) -> Answer {
    let on = |text: &str| mistake.is_some_and(|at| CONVERSIONS[at] == text);
    let right = Switch::new(None);
    if let Some(number) = crate::sizes(file, limits, right) {
        return Answer::Refused(number);
    }
    let width = match out {
        true if on("out: the wide edition is read") => WIDE,
        false if on("back: the narrow edition is read") => NARROW,
        true => NARROW,
        false => WIDE,
    };
    let (_, refused) = reader::read(file, width, right);
    if let Some(number) = refused {
        let late = on("back: 14 on the line's turn, before a later line's refusal");
        if late && !out && before_the_fault(file).iter().any(|line| large(line)) {
            return Answer::Refused(14);
        }
        return Answer::Refused(number);
    }
    let lines: Vec<&[u8]> = file.split_inclusive(|byte| *byte == b'\n').collect();
    let first = lines.iter().position(|line| line.starts_with(b"06"));
    let asked = lines.iter().enumerate().filter(|(at, line)| match () {
        _ if on("back: 14 is asked of types alone") => line.starts_with(b"03"),
        _ if on("back: 14 is asked of nodes alone") => line.starts_with(b"05"),
        _ if on("back: 14 is asked of the first query's nodes alone") => Some(*at) <= first,
        _ => true,
    });
    let fourteen = !out
        && !on("back: a large number is cut to its low half")
        && asked.map(|(_, line)| line).any(|line| large(line));
    if fourteen && !on("back: 14 after 12") {
        return Answer::Refused(14);
    }
    let mut text = Vec::new();
    for line in lines {
        let skipped = out
            && (on("out: the file is copied")
                || on("out: a type's number keeps two bytes") && line.starts_with(b"03")
                || on("out: a node's number keeps two bytes") && line.starts_with(b"05"));
        match place(line) {
            0 => text.extend_from_slice(line),
            _ if skipped => text.extend_from_slice(line),
            at if out && on("out: the zeros stand after the number") => {
                text.extend_from_slice(&line[..at + 4]);
                text.extend_from_slice(b"0000");
                text.extend_from_slice(&line[at + 4..]);
            }
            at if out => {
                text.extend_from_slice(&line[..at]);
                text.extend_from_slice(b"0000");
                text.extend_from_slice(&line[at..]);
            }
            at => {
                let low = usize::from(on("back: the number's low half is cut out"));
                text.extend_from_slice(&line[..at + 4 * low]);
                text.extend_from_slice(&line[at + 4 + 4 * low..]);
            }
        }
    }
    let length = match () {
        _ if on("12 by the file's own length") => file.len(),
        _ if on("12 where the output is over 65,536 bytes whatever is lent")
            && text.len() > 65_536 =>
        {
            usize::MAX
        }
        _ if on("12 one byte late") => text.len() - 1,
        _ => text.len(),
    };
    if length > limits.bytes {
        return Answer::Refused(12);
    }
    if fourteen {
        return Answer::Refused(14);
    }
    Answer::Lines(text)
}

/// Whether a sound line of the wide edition names a predicate above 65,535.
fn large(line: &[u8]) -> bool {
    let at = place(line);
    at > 0 && &line[at..at + 4] != b"0000"
}

/// Mistake: the lines up to the first that is turned down, found by reading ever more of them.
fn before_the_fault(file: &[u8]) -> Vec<&[u8]> {
    let right = Switch::new(None);
    let lines: Vec<&[u8]> = file.split_inclusive(|byte| *byte == b'\n').collect();
    let missing = |upto: usize| {
        let (_, refused) = reader::read(&lines[..upto].concat(), WIDE, right);
        // A file that just ends too soon is 4, and so is a kind out of place.
        refused.is_none() || refused == Some(4)
    };
    let last = (0..=lines.len()).rev().find(|upto| missing(*upto));
    lines[..last.unwrap_or(0)].to_vec()
}
