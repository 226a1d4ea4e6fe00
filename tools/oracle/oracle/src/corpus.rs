//! The files that a run goes through.

use crate::options::Options;

/// One file, and what it is called in reports.
pub struct Item {
    pub name: String,
    pub file: Vec<u8>,
}

/// Where a run's files come from.
pub enum Corpus {
    /// The first `count` files of the run of that seed, of one style or of the style that the
    /// generator picks for each.
    Generated {
        style: Option<&'static str>,
        seed: u64,
        count: u64,
    },
    /// A file and all that one byte can do to it.
    Neighbours(Vec<u8>),
    /// Every file of up to two bytes, and every second line of one and two bytes after a right
    /// first one.
    Short,
    /// Every recursion as deep as it goes.
    Nested(Vec<(String, Vec<u8>)>),
}

/// The options with a value that `Corpus::from` reads.
pub const OPTIONS: [&str; 4] = ["seed", "count", "style", "bytes-exhaustive"];
/// The flags that it reads.
pub const FLAGS: [&str; 2] = ["short", "nested"];

impl Corpus {
    pub fn from(options: &Options) -> Result<Corpus, String> {
        if let Some(path) = options.text("bytes-exhaustive") {
            let file = std::fs::read(path).map_err(|why| format!("{path}: {why}"))?;
            return Ok(Corpus::Neighbours(file));
        }
        if options.flag("short") {
            return Ok(Corpus::Short);
        }
        if options.flag("nested") {
            return Ok(Corpus::Nested(files::nested()));
        }
        Ok(Corpus::Generated {
            style: style(options)?,
            seed: options.needed("seed")?,
            count: options.needed("count")?,
        })
    }

    pub fn count(&self) -> u64 {
        match self {
            Corpus::Generated { count, .. } => *count,
            // Each prefix; each byte dropped; each byte changed to each other value.
            Corpus::Neighbours(file) => file.len() as u64 * 257 + 1,
            Corpus::Short => 2 * STRINGS - 1,
            Corpus::Nested(files) => files.len() as u64,
        }
    }

    pub fn item(&self, number: u64) -> Item {
        match self {
            Corpus::Generated { style, seed, .. } => {
                let (style, file) = match style {
                    Some(style) => (*style, files::generate(style, trial::nth(*seed, number))),
                    None => trial::file(*seed, number),
                };
                Item {
                    name: format!("{style}-{seed}-{number}"),
                    file,
                }
            }
            Corpus::Neighbours(file) => neighbour(file, number as usize),
            Corpus::Short => short(number),
            Corpus::Nested(files) => {
                let (name, file) = files[number as usize].clone();
                Item { name, file }
            }
        }
    }
}

/// The style asked for, if one is.
pub fn style(options: &Options) -> Result<Option<&'static str>, String> {
    let Some(named) = options.text("style") else {
        return Ok(None);
    };
    let known = files::STYLES
        .iter()
        .chain([&files::LOAD, &files::PAIRS])
        .find(|style| **style == named);
    match known {
        Some(style) => Ok(Some(style)),
        None => Err(format!(
            "no style {named:?}; there are {}",
            files::STYLES.join(", ")
        )),
    }
}

/// Byte strings of up to two bytes.
const STRINGS: u64 = 1 + 256 + 65_536;

fn string(number: u64) -> Vec<u8> {
    match number {
        0 => vec![],
        1..=256 => vec![(number - 1) as u8],
        _ => ((number - 257) as u16).to_be_bytes().to_vec(),
    }
}

fn short(number: u64) -> Item {
    if number < STRINGS {
        let file = string(number);
        return Item {
            name: format!("bytes-{file:02x?}"),
            file,
        };
    }
    let mut file = b"01020020\n".to_vec();
    let frame = string(number - STRINGS + 1);
    for byte in &frame {
        file.extend_from_slice(format!("{byte:02x}").as_bytes());
    }
    file.push(b'\n');
    Item {
        name: format!("frame-{frame:02x?}"),
        file,
    }
}

fn neighbour(file: &[u8], number: usize) -> Item {
    let length = file.len();
    if number <= length {
        return Item {
            name: format!("first-{number}"),
            file: file[..number].to_vec(),
        };
    }
    let number = number - length - 1;
    let mut file = file.to_vec();
    if number < length {
        file.remove(number);
        return Item {
            name: format!("without-{number}"),
            file,
        };
    }
    let (at, step) = ((number - length) / 255, (number - length) % 255);
    file[at] = file[at].wrapping_add(1 + step as u8);
    Item {
        name: format!("byte-{at}-{:02x}", file[at]),
        file,
    }
}
