//! The tally of card 7, a second time: by counting visits one thousand after the other.

/// Units, cents, remainder.
pub type Tally = [u32; 3];

/// Mistakes in a tally, by name.
pub const TARIFFS: [&str; 12] = [
    "the remainder is dropped",
    "the remainder does not join the visits",
    "only the thousands of this query are charged",
    "a thousand is begun and counted",
    "a thousand is 1,024",
    "the price is for each visit",
    "units may pass 32 bits",
    "cents may pass 32 bits",
    "a remainder of 1,000 passes",
    "a remainder of 999 is refused",
    "a total of 4,294,967,295 is refused",
    "the tally is kept up to the fault",
];

/// The tally with a query's visits at its price, and whether it was refused.
pub fn tally(before: Tally, visits: u32, price: u16, mistake: Option<usize>) -> (Tally, bool) {
    let on = |text: &str| mistake.is_some_and(|at| TARIFFS[at] == text);
    let [units, cents, remainder] = before;
    let most = match () {
        _ if on("a remainder of 1,000 passes") => 1_000,
        _ if on("a remainder of 999 is refused") => 998,
        _ => 999,
    };
    if remainder > most {
        return (before, true);
    }
    let thousand = if on("a thousand is 1,024") {
        1_024
    } else {
        1_000
    };
    let mut waiting = u64::from(visits);
    if !on("the remainder does not join the visits") {
        waiting += u64::from(remainder);
    }
    let mut bought = 0_u64;
    // In strides, so that the largest number of visits does not take four million turns.
    for stride in [1_000_000, 1_000, 1] {
        while waiting >= stride * thousand {
            waiting -= stride * thousand;
            bought += stride;
        }
    }
    if on("a thousand is begun and counted") && waiting > 0 {
        bought += 1;
    }
    let charged = match () {
        _ if on("only the thousands of this query are charged") => u64::from(visits) / 1_000,
        _ if on("the price is for each visit") => u64::from(visits),
        _ => bought,
    };
    let top = match () {
        _ if on("a total of 4,294,967,295 is refused") => u64::from(u32::MAX) - 1,
        _ => u64::from(u32::MAX),
    };
    let units = u64::from(units) + bought;
    let cents = u64::from(cents) + charged * u64::from(price);
    let over = units > top && !on("units may pass 32 bits")
        || cents > top && !on("cents may pass 32 bits");
    let rest = match () {
        _ if on("the remainder is dropped") => 0,
        _ => waiting as u32,
    };
    if over && on("the tally is kept up to the fault") {
        return ([units as u32, before[1], rest], true);
    }
    if over {
        return (before, true);
    }
    ([units as u32, cents as u32, rest], false)
}
