//! `oracle compare days` and `oracle compare tally`: cards 8 and 7 over random lists of calls.

mod cabinet;
mod day;
mod tally;

use crate::Done;
use crate::options::Options;
use cabinet::{Cabinet, Linked, Modelled};

pub use day::mistakes;
pub use tally::{compare as compare_tally, mistakes as tally_mistakes};

const NO_DESKS: &str = "the static library was not there when oracle was built, or has not the calls of tally and desks";

/// Random days beside the definition.
pub fn compare_days(options: &Options) -> Done {
    let mut ports: Vec<Box<dyn Cabinet>> = vec![];
    if options.flag("model") {
        ports.push(Box::new(Modelled(model::Day { mistake: None })));
    }
    if linked::desks::HAS {
        ports.push(Box::new(Linked));
    }
    if ports.is_empty() {
        return Err(format!(
            "nothing to compare with: no --model, and {NO_DESKS}"
        ));
    }
    day::compare(options, &ports)
}
