//! The two converters of card 6: what a file of one edition is in the other.
//!
//! The file is read in the edition that it is of, with refusals 1 to 10 and 13, and what it says is written in
//! the other: every number kept. On the way back 14 is asked when all lines are read, and 12 last.

use crate::file::{File, Shape, Type};
use crate::{Answer, Edition, Limits, encode_in, read_in};

/// The file in the other edition, or the refusal's number.
pub fn convert(file: &[u8], from: Edition, limits: &Limits) -> Answer {
    let described = match read_in(file, limits, from) {
        Ok(described) => described,
        Err(number) => return Answer::Refused(number),
    };
    let to = match from {
        Edition::Narrow => Edition::Wide,
        Edition::Wide if references(&described).any(|number| number > 65_535) => {
            return Answer::Refused(14);
        }
        Edition::Wide => Edition::Narrow,
    };
    let lines = encode_in(&described, to);
    if lines.len() > limits.bytes {
        return Answer::Refused(12);
    }
    Answer::Lines(lines)
}

/// Every predicate that the file refers to: in its types, then in the nodes of each query.
pub fn references(file: &File) -> impl Iterator<Item = u32> {
    let types = file.types.iter().filter_map(|ty| match ty {
        Type::Fact(predicate) => Some(*predicate),
        _ => None,
    });
    let nodes = file.trees.iter().flat_map(|tree| &tree.nodes);
    types.chain(nodes.filter_map(|node| match node.shape {
        Shape::Fact(predicate, _) => Some(predicate),
        _ => None,
    }))
}
