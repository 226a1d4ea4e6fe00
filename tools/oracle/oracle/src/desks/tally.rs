//! The tally of card 7 over random steps.

use files::Rng;
use judge::Tally;

use super::NO_DESKS;
use crate::Done;
use crate::convert::print_told;
use crate::mismatch::Mismatches;
use crate::options::Options;

type Words = [u32; 3];

fn words(tally: Tally) -> Words {
    [tally.units, tally.cents, tally.remainder]
}

/// A tally after a step, and 0 or 15.
fn defined(before: Words, visits: u32, price: u16) -> (Words, u8) {
    let [units, cents, remainder] = before;
    let tally = Tally {
        units,
        cents,
        remainder,
    };
    match tally.add(visits, price) {
        Ok(after) => (words(after), 0),
        Err(number) => (before, number),
    }
}

fn modelled(before: Words, visits: u32, price: u16, mistake: Option<usize>) -> (Words, u8) {
    let (after, refused) = model::tally(before, visits, price, mistake);
    (after, if refused { 15 } else { 0 })
}

fn linked(before: Words, visits: u32, price: u16) -> (Words, u8) {
    let mut after = before;
    let number = linked::desks::tally(&mut after, visits, price);
    (after, number)
}

/// A tally to begin with: zero most often, else one near a limit or one that no run gives.
fn begin(rng: &mut Rng) -> Words {
    let near = |rng: &mut Rng| u32::MAX - rng.pick(&[0, 1, 2, 1_000, 1_048, 70_000, 70_000_000]);
    match rng.below(6) {
        0 => [near(rng), rng.next() as u32, rng.below(1_000) as u32],
        1 => [rng.next() as u32, near(rng), rng.below(1_000) as u32],
        2 => [
            rng.below(9) as u32,
            rng.below(9) as u32,
            rng.pick(&[998, 999, 1_000, 1_001, u32::MAX]),
        ],
        _ => [0; 3],
    }
}

fn step(rng: &mut Rng) -> (u32, u16) {
    let visits = match rng.below(8) {
        0 => rng.pick(&[0, 1, 999, 1_000, 1_001, 1_048_576, u32::MAX, u32::MAX - 999]),
        1 => rng.next() as u32,
        2..5 => rng.below(3_000) as u32,
        _ => rng.below(1_048_577) as u32,
    };
    let price = match rng.below(4) {
        0 => rng.pick(&[0, 1, 65_535]),
        _ => rng.next() as u16,
    };
    (visits, price)
}

pub fn compare(options: &Options) -> Done {
    let model = options.flag("model");
    if !model && !linked::desks::HAS {
        return Err(format!(
            "nothing to compare with: no --model, and {NO_DESKS}"
        ));
    }
    let count: u64 = options.number("count")?.unwrap_or(1_000_000);
    let rng = &mut Rng::new(options.needed("seed")?);
    let mut mismatches = Mismatches::new(options.text("out"));
    let (mut asked, mut refused, mut runs, mut longest) = (0_u64, 0_u64, 0_u64, 0_u64);
    let mut tally = [0; 3];
    // The visits and the cents of the run so far, where it began from zero.
    let mut sums = Some((0_u128, 0_u128));
    let mut steps = 0;
    // A run that was refused a step is soon followed by another.
    let mut over = true;
    for number in 0..count {
        if over || rng.chance(1) {
            tally = begin(rng);
            sums = (tally == [0; 3]).then_some((0, 0));
            steps = 0;
            runs += 1;
        }
        let (visits, price) = step(rng);
        let expected = defined(tally, visits, price);
        let mut found = vec![];
        if model {
            found.push(("model", modelled(tally, visits, price, None)));
        }
        if linked::desks::HAS {
            found.push(("library", linked(tally, visits, price)));
        }
        for (port, found) in found {
            asked += 1;
            if found != expected {
                mismatches.keep(
                    &format!("tally-{port}-{number}"),
                    &[(
                        "step",
                        format!(
                            "{tally:?} {visits} {price}: expected {expected:?}, found {found:?}\n"
                        )
                        .as_bytes(),
                    )],
                )?;
            }
        }
        let (after, outcome) = expected;
        if outcome == 0 {
            let units = u128::from(after[0]) - u128::from(tally[0]);
            sums = sums
                .map(|(all, cents)| (all + u128::from(visits), cents + units * u128::from(price)));
            steps += 1;
        } else {
            refused += 1;
        }
        // Over any run from zero: 1,000 times the units and the remainder are all visits.
        if let Some((all, cents)) = sums {
            longest = longest.max(steps);
            let kept = 1_000 * u128::from(after[0]) + u128::from(after[2]) == all
                && u128::from(after[1]) == cents
                && after[2] <= 999;
            if !kept {
                mismatches.keep(
                    &format!("tally-sum-{number}"),
                    &[("tally", format!("{after:?} {all} {cents}\n").as_bytes())],
                )?;
            }
        }
        tally = after;
        over = outcome != 0 && rng.chance(60);
        if mismatches.too_many() {
            break;
        }
    }
    println!(
        "compare tally: {count} steps in {runs} runs, the longest from zero of {longest}; {refused} refused, {asked} \
         comparisons, {} mismatches",
        mismatches.count
    );
    Ok(mismatches.count == 0)
}

/// Which mistakes in a tally so many steps tell from the right one.
pub fn mistakes(seed: u64, steps: u64) -> Vec<&'static str> {
    let mut told: Vec<Option<u64>> = vec![None; model::TARIFFS.len()];
    let rng = &mut Rng::new(seed);
    let mut tally = [0; 3];
    for number in 0..steps {
        if rng.chance(2) {
            tally = begin(rng);
        }
        let (visits, price) = step(rng);
        let expected = defined(tally, visits, price);
        for (mistake, told) in told.iter_mut().enumerate() {
            if told.is_none() && modelled(tally, visits, price, Some(mistake)) != expected {
                *told = Some(number);
            }
        }
        tally = expected.0;
    }
    print_told("a tally", &model::TARIFFS, &told)
}
