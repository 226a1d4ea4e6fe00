//! Files for the judge, the model and the program: the same for the same seed.

mod damage;
mod deep;
mod draft;
mod edge;
mod faults;
mod filled;
mod forms;
mod grow;
mod limits;
mod load;
mod messages;
mod nested;
mod noise;
mod once;
mod pairs;
mod predicates;
mod references;
mod rng;
mod shapes;
mod texts;
mod valid;

pub use filled::{GROWING, filled};
pub use load::load;
pub use nested::{nested, stacked};
pub use predicates::narrowed;
pub use rng::Rng;
pub use shapes::{doubling, form, shapes, speaking};

type Make = fn(&mut Rng) -> Vec<u8>;

/// Every style with its weight: the heavy ones are rare. A style's place is part of what
/// its seeds mean, so new ones go to the end.
const TABLE: &[(&str, usize, Make)] = &[
    ("grown", 1500, |rng| valid::grown(rng).bytes()),
    ("misfits", 1200, |rng| valid::misfits(rng).bytes()),
    ("poison", 400, |rng| valid::poison(rng).bytes()),
    ("scopes", 500, |rng| valid::scopes(rng).bytes()),
    ("wild", 600, |rng| valid::wild(rng).bytes()),
    ("tiny", 600, |rng| valid::tiny(rng).bytes()),
    ("unknowns", 900, |rng| valid::unknowns(rng).bytes()),
    ("records", 600, |rng| valid::records(rng).bytes()),
    ("alike", 900, |rng| valid::alike(rng).bytes()),
    ("accesses", 700, |rng| valid::accesses(rng).bytes()),
    ("fuzzy", 200, |rng| valid::fuzzy(rng).bytes()),
    ("left-sides", 500, |rng| valid::left_sides(rng).bytes()),
    ("rollbacks", 700, |rng| valid::rollbacks(rng).bytes()),
    ("damaged-characters", 300, damage::characters),
    ("spelling", 150, damage::spelling),
    ("damaged-lines", 200, damage::lines),
    ("damaged-ends", 150, damage::ends),
    ("damaged-frames", 300, damage::frames),
    ("references", 300, references::references),
    ("texts", 450, texts::texts),
    ("kinds", 200, faults::kinds),
    ("two-faults", 450, faults::two_faults),
    ("one-after-another", 250, faults::one_after_another),
    ("one-frame", 450, faults::one_frame),
    ("first-frame", 40, faults::first_frame),
    ("bytes", 60, noise::bytes),
    ("digits", 100, noise::digits),
    ("large", 40, |rng| valid::large(rng).bytes()),
    ("few-visits", 60, limits::few_visits),
    ("counts", 60, limits::counts),
    ("long-line", 50, limits::long_line),
    ("deep", 25, deep::deep),
    ("long-file", 6, limits::long_file),
    ("long-answer", 4, limits::long_answer),
    ("doubling", 1, limits::doubling),
    ("edge", 12, edge::edge),
    ("visits", 1, limits::visits),
    ("deepest", 4, deep::deepest),
    ("forms", 900, forms::forms),
    ("form-faults", 600, forms::faults),
    ("form-few-visits", 120, forms::few_visits),
    ("full-forms", 60, forms::full),
    ("form-nodes", 25, forms::nodes),
    ("form-answers", 6, forms::answers),
    ("form-visits", 2, forms::visits),
    ("messages", 900, |rng| messages::messages(rng).bytes()),
    ("no-order", 500, |rng| messages::no_order(rng).bytes()),
    ("differences", 500, |rng| messages::differences(rng).bytes()),
    ("message-last", 6, messages::message_last),
    ("renderings", 20, messages::renderings),
    ("look-alikes", 600, predicates::look_alikes),
    ("many-facts", 6, predicates::many_facts),
    ("once", 900, |rng| once::once(rng).bytes()),
    ("once-most", 15, once::once_most),
    ("once-last", 6, once::once_last),
];

const fn styles() -> [&'static str; TABLE.len()] {
    let mut names = [""; TABLE.len()];
    let mut at = 0;
    while at < TABLE.len() {
        names[at] = TABLE[at].0;
        at += 1;
    }
    names
}

/// The styles by name.
pub const STYLES: &[&str] = &styles();

/// Card 11's test load, by name alone: its files are those of the low 32 bits of the seed.
pub const LOAD: &str = "load";

/// Card 12's unifications of several steps, by name alone.
pub const PAIRS: &str = "pairs";

/// A file of that style; an unknown style has no files but the empty one.
pub fn generate(style: &str, seed: u64) -> Vec<u8> {
    if style == LOAD {
        return load(seed as u32);
    }
    if style == PAIRS {
        let rng = &mut Rng::new(!seed);
        rng.next();
        return pairs::pairs(rng);
    }
    let Some(place) = STYLES.iter().position(|name| *name == style) else {
        return Vec::new();
    };
    let rng = &mut Rng::new(seed ^ (place as u64 + 1).wrapping_mul(0x9e37_79b9_7f4a_7c15));
    // Two draws apart, seeds and styles that are neighbours share nothing.
    rng.next();
    (TABLE[place].2)(rng)
}

/// A style for a seed, drawn by the weights.
pub fn pick(seed: u64) -> &'static str {
    let weights: Vec<usize> = TABLE.iter().map(|row| row.1).collect();
    STYLES[Rng::new(!seed).weighted(&weights)]
}

#[cfg(test)]
mod tests {
    use super::*;

    #[test]
    fn a_seed_means_one_file() {
        for style in STYLES {
            for seed in 0..30 {
                assert_eq!(
                    generate(style, seed),
                    generate(style, seed),
                    "{style} {seed}"
                );
            }
        }
    }

    #[test]
    fn every_style_is_drawn() {
        let drawn: std::collections::BTreeSet<&str> = (0..400_000).map(pick).collect();
        assert_eq!(drawn.len(), STYLES.len());
    }
}
