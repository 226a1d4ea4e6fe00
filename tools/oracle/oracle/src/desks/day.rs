//! A random day: a group is set up, and desks call in any order, with other groups and broken ones between.

use std::collections::BTreeMap;
use std::time::Instant;

use files::Rng;
use judge::{GROUP_WORDS, Group, Limits, MOST_VISITS};

use super::cabinet::{Cabinet, Checked, Defined, Modelled, Words};
use crate::Done;
use crate::convert::print_told;
use crate::mismatch::Mismatches;
use crate::options::Options;

/// One call.
enum Event {
    SetUp(u32, Vec<u32>, Vec<u32>),
    Ceiling(Words, usize),
    NewDay(Words),
    Check(Words, usize, usize, Limits),
}

/// What a call gave.
#[derive(Debug, Clone, PartialEq)]
enum Outcome {
    Group(u8, Words),
    Ceiling(u8, u32),
    Checked(Checked),
}

impl Outcome {
    fn number(&self) -> u8 {
        match self {
            Outcome::Group(number, _) | Outcome::Ceiling(number, _) => *number,
            Outcome::Checked(checked) => checked.number,
        }
    }
}

fn asked(port: &dyn Cabinet, event: &Event, files: &[Vec<u8>]) -> Outcome {
    match event {
        Event::SetUp(pool, shares, caps) => {
            let (number, group) = port.set_up(*pool, shares, caps);
            Outcome::Group(number, group)
        }
        Event::Ceiling(group, desk) => {
            let (number, ceiling) = port.ceiling(group, *desk);
            Outcome::Ceiling(number, ceiling)
        }
        Event::NewDay(group) => {
            let (number, group) = port.new_day(group);
            Outcome::Group(number, group)
        }
        Event::Check(group, desk, file, limits) => {
            Outcome::Checked(port.check(group, *desk, &files[*file], limits))
        }
    }
}

/// The definition's outcome and the visits of the queries that ran; none where the Rust can't hold the file.
fn defined(event: &Event, files: &[Vec<u8>]) -> Option<(Outcome, Vec<u64>)> {
    let outcome = match event {
        Event::SetUp(pool, shares, caps) => {
            let (number, group) = Defined.set_up(*pool, shares, caps);
            Outcome::Group(number, group)
        }
        Event::Ceiling(group, desk) => {
            let (number, ceiling) = Defined.ceiling(group, *desk);
            Outcome::Ceiling(number, ceiling)
        }
        Event::NewDay(group) => {
            let (number, group) = Defined.new_day(group);
            Outcome::Group(number, group)
        }
        Event::Check(group, desk, file, limits) => {
            let (checked, visits) = Defined.check(group, *desk, &files[*file], limits)?;
            return Some((Outcome::Checked(checked), visits));
        }
    };
    Some((outcome, vec![]))
}

/// Files of every style, so many that a day meets most of them often, and those that use many visits.
fn pool_of_files(seed: u64) -> Vec<Vec<u8>> {
    let mut files: Vec<Vec<u8>> = (0..2_500).map(|n| trial::file(!seed, n).1).collect();
    for style in [
        "few-visits",
        "form-few-visits",
        "forms",
        "rollbacks",
        "unknowns",
    ] {
        files.extend((0..200).map(|n| files::generate(style, trial::nth(seed, n))));
    }
    // Those that come to the limit of a query alone take long.
    for style in [
        "edge",
        "visits",
        "form-visits",
        "doubling",
        "form-answers",
        "long-answer",
    ] {
        files.extend((0..3).map(|n| files::generate(style, trial::nth(seed, n))));
    }
    // Few of these have a query after the one that is stopped.
    files.extend((3..60).map(|n| files::generate("form-visits", trial::nth(seed, n))));
    files
}

/// A group of so many desks, whose numbers are of any size.
fn set_up(rng: &mut Rng, desks: usize) -> (u32, Vec<u32>, Vec<u32>) {
    let scale = rng.pick(&[4, 8, 10, 12, 14, 16, 20, 22, 26, 32]);
    let below = |rng: &mut Rng, bits: u32| (rng.next() % (1_u64 << bits)) as u32;
    let pool = below(rng, scale);
    let mut rest = pool;
    let generous = rng.chance(40);
    let mut shares = vec![];
    for _ in 0..desks {
        let most = if generous { rest } else { rest / desks as u32 };
        let share = match rng.below(4) {
            0 => 0,
            1 => most,
            _ => (rng.next() % (u64::from(most) + 1)) as u32,
        };
        rest -= share;
        shares.push(share);
    }
    rng.shuffle(&mut shares);
    let caps = shares
        .iter()
        .map(|share| match rng.below(5) {
            0 => *share,
            1 => u32::MAX,
            2 => share.saturating_add(below(rng, 8)),
            _ => share.saturating_add(below(rng, scale)),
        })
        .collect();
    (pool, shares, caps)
}

/// Numbers that break a rule, or come close to it.
fn broken_set_up(rng: &mut Rng) -> (u32, Vec<u32>, Vec<u32>) {
    let desks = rng.between(1, 16);
    let (mut pool, mut shares, mut caps) = set_up(rng, desks);
    let at = rng.below(shares.len());
    match rng.below(10) {
        0 => return (pool, vec![], vec![]),
        1 => return (0, vec![0; 17], vec![0; 17]),
        // 16 shares that add up to 0 in 32 bits.
        2 => {
            return (
                rng.pick(&[0, 1, u32::MAX]),
                vec![1 << 28; 16],
                vec![u32::MAX; 16],
            );
        }
        3 => drop(caps.pop()),
        4 => caps.push(0),
        5 => shares.push(0),
        6 => caps[at] = shares[at].saturating_sub(1),
        7 => {
            pool = shares
                .iter()
                .fold(0, |sum: u32, share| sum.saturating_add(*share))
                .saturating_sub(1)
        }
        8 => shares[at] = u32::MAX,
        _ => {
            pool = shares
                .iter()
                .fold(0, |sum: u32, share| sum.saturating_add(*share));
        }
    }
    (pool, shares, caps)
}

/// The group with one word or two changed: most break a rule.
fn changed(rng: &mut Rng, group: &Words) -> Words {
    let mut words = *group;
    if rng.chance(25) {
        // A use one past its cap, or at it.
        let desk = 2 + 3 * rng.below(words[0].clamp(1, 16) as usize);
        words[desk + 2] = words[desk + 1].wrapping_add(rng.below(2) as u32);
        return words;
    }
    for _ in 0..rng.between(1, 2) {
        let at = match rng.below(5) {
            0 => 0,
            1 => 1,
            _ => 2 + rng.below(3 * words[0].clamp(1, 16) as usize),
        };
        words[at] = match rng.below(8) {
            0 => 0,
            1 => words[at].wrapping_add(1),
            2 => words[at].wrapping_sub(1),
            3 => rng.pick(&[16, 17, 1, 255]),
            4 => u32::MAX,
            5 => 1 << 31,
            // A use at its cap, or a cap at its use.
            6 => words[2 + (at.max(2) - 2) / 3 * 3 + rng.below(3)],
            _ => rng.next() as u32,
        };
    }
    words
}

fn event(rng: &mut Rng, group: &Words, files: usize) -> Event {
    let of = match rng.below(100) {
        0..6 => changed(rng, group),
        _ => *group,
    };
    let count = of[0] as usize;
    let desk = match rng.below(40) {
        0 => rng.pick(&[count, count + 1, 16, 17, 255, 1 << 16, usize::MAX]),
        _ => rng.below(count.clamp(1, 16)),
    };
    match rng.below(100) {
        0..4 => {
            let desks = rng.between(1, 16);
            let (pool, shares, caps) = set_up(rng, desks);
            Event::SetUp(pool, shares, caps)
        }
        4..9 => {
            let (pool, shares, caps) = broken_set_up(rng);
            Event::SetUp(pool, shares, caps)
        }
        9..19 => Event::Ceiling(of, desk),
        19..22 => Event::NewDay(of),
        _ => {
            let usual = Limits::default();
            let limits = match rng.below(20) {
                0 => Limits {
                    words: rng.pick(&[0, 1, 16_383]),
                    ..usual
                },
                1..4 => Limits {
                    bytes: rng.below(400),
                    ..usual
                },
                _ => Limits {
                    bytes: 8_000,
                    ..usual
                },
            };
            Event::Check(of, desk, rng.below(files), limits)
        }
    }
}

/// The group that a day goes on with: the one that the definition leaves, where the event was the day's own.
fn next(group: &Words, event: &Event, outcome: &Outcome) -> Words {
    match (event, outcome) {
        (Event::NewDay(of), Outcome::Group(0, after)) if of == group => *after,
        (Event::Check(of, ..), Outcome::Checked(checked)) if of == group => checked.group,
        _ => *group,
    }
}

/// What card 8 promises of the group at every moment.
fn promised(group: &Words) -> bool {
    let group = Group::of_words(group);
    let desks = &group.desks[..group.count as usize];
    group.obeys()
        && desks.iter().enumerate().all(|(at, desk)| {
            let rest = u64::from(desk.share.saturating_sub(desk.used));
            desk.used <= desk.cap && group.ceiling(at).is_ok_and(|c| c >= rest.min(MOST_VISITS))
        })
}

#[derive(Default)]
struct Counts {
    events: u64,
    left_out: u64,
    asked: u64,
    numbers: [BTreeMap<u8, u64>; 4],
    /// Cabinets by their number of desks.
    desks: [u64; 16],
    /// Queries that ran, and their visits.
    queries: u64,
    visits: u64,
    /// Checks that were charged though refused.
    charged: u64,
}

const KINDS: [&str; 4] = ["set-up", "ceiling", "new day", "check"];

fn kind(event: &Event) -> usize {
    match event {
        Event::SetUp(..) => 0,
        Event::Ceiling(..) => 1,
        Event::NewDay(..) => 2,
        Event::Check(..) => 3,
    }
}

/// The events of a cabinet, before the next is set up.
const CABINET: u64 = 1_000;

pub fn compare(options: &Options, ports: &[Box<dyn Cabinet>]) -> Done {
    let seed: u64 = options.needed("seed")?;
    let days: u64 = options.number("days")?.unwrap_or(4);
    let events: u64 = options.number("events")?.unwrap_or(100_000);
    let mut mismatches = Mismatches::new(options.text("out"));
    let mut counts = Counts::default();
    let started = Instant::now();
    let files = pool_of_files(seed);
    for day in 0..days {
        let rng = &mut Rng::new(trial::nth(seed, day));
        rng.next();
        let mut group = [0; GROUP_WORDS];
        for number in 0..events {
            // Now and then another cabinet.
            if number % CABINET == 0 {
                let desks = rng.between(1, 16);
                let (pool, shares, caps) = set_up(rng, desks);
                group = Defined.set_up(pool, &shares, &caps).1;
                counts.desks[desks - 1] += 1;
            }
            let event = event(rng, &group, files.len());
            counts.events += 1;
            let Some((expected, visits)) = defined(&event, &files) else {
                counts.left_out += 1;
                continue;
            };
            let refused = expected.number();
            *counts.numbers[kind(&event)].entry(refused).or_default() += 1;
            counts.queries += visits.len() as u64;
            counts.visits += visits.iter().sum::<u64>();
            for port in ports {
                counts.asked += 1;
                let found = asked(port.as_ref(), &event, &files);
                if found != expected {
                    keep(
                        &mut mismatches,
                        port.name(),
                        day,
                        number,
                        &event,
                        &files,
                        (&expected, &found),
                    )?;
                }
            }
            let after = next(&group, &event, &expected);
            counts.charged += u64::from(refused > 0 && after != group);
            group = after;
            if !promised(&group) {
                mismatches.keep(
                    &format!("promise-{day}-{number}"),
                    &[("group", format!("{group:?}\n").as_bytes())],
                )?;
            }
            if mismatches.too_many() {
                println!("stopped after {} mismatches", mismatches.count);
                return Ok(false);
            }
        }
        eprintln!(
            "day {} of {days}, {} mismatches, {} s",
            day + 1,
            mismatches.count,
            started.elapsed().as_secs()
        );
    }
    println!(
        "  cabinets of 1 to 16 desks: {}",
        counts.desks.map(|count| count.to_string()).join(", ")
    );
    for (kind, numbers) in KINDS.iter().zip(&counts.numbers) {
        let numbers: Vec<String> = numbers
            .iter()
            .map(|(number, count)| match number {
                0 => format!("done {count}"),
                _ => format!("{number}: {count}"),
            })
            .collect();
        println!("  {kind}: {}", numbers.join(", "));
    }
    println!(
        "  queries run at a desk: {}, {} visits; files refused and charged: {}",
        counts.queries, counts.visits, counts.charged
    );
    println!(
        "compare days: {days} days of {events} events, {} left out, {} comparisons, {} mismatches",
        counts.left_out, counts.asked, mismatches.count
    );
    Ok(mismatches.count == 0)
}

fn keep(
    mismatches: &mut Mismatches,
    port: &str,
    day: u64,
    number: u64,
    event: &Event,
    files: &[Vec<u8>],
    (expected, found): (&Outcome, &Outcome),
) -> Result<(), String> {
    let (call, file) = match event {
        Event::SetUp(pool, shares, caps) => (format!("set-up {pool} {shares:?} {caps:?}"), &[][..]),
        Event::Ceiling(group, desk) => (format!("ceiling {group:?} {desk}"), &[][..]),
        Event::NewDay(group) => (format!("new day {group:?}"), &[][..]),
        Event::Check(group, desk, file, limits) => (
            format!("check {group:?} {desk} {limits:?}"),
            &files[*file][..],
        ),
    };
    mismatches.keep(
        &format!("days-{port}-{day}-{number}"),
        &[
            ("call", call.as_bytes()),
            ("file", file),
            ("expected", format!("{expected:?}\n").as_bytes()),
            ("found", format!("{found:?}\n").as_bytes()),
        ],
    )
}

/// Which mistakes at the desks so many events tell from the right.
pub fn mistakes(seed: u64, events: u64) -> Vec<&'static str> {
    let files = pool_of_files(seed);
    let mut told: Vec<Option<u64>> = vec![None; model::DESKS.len()];
    let rng = &mut Rng::new(seed);
    let mut group = [0; GROUP_WORDS];
    for number in 0..events {
        if number % (CABINET / 4) == 0 {
            let desks = rng.between(1, 16);
            let (pool, shares, caps) = set_up(rng, desks);
            group = Defined.set_up(pool, &shares, &caps).1;
        }
        let event = event(rng, &group, files.len());
        let Some((expected, _)) = defined(&event, &files) else {
            continue;
        };
        for (mistake, told) in told.iter_mut().enumerate() {
            let port = Modelled(model::Day {
                mistake: Some(mistake),
            });
            if told.is_none() && asked(&port, &event, &files) != expected {
                *told = Some(number);
            }
        }
        group = next(&group, &event, &expected);
        if told.iter().all(Option::is_some) {
            break;
        }
    }
    print_told("the desks' calls", &model::DESKS, &told)
}
