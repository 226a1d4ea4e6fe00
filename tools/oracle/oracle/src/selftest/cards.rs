//! What cards 6, 7 and 8 say outright: the converters, the tally, the cabinet.

use judge::{Answer, Desk, Edition, Group as Cabinet, Limits, Tally};

use super::forms::{FIRST, NAMES};
use super::{Group, lines};

/// A file of the narrow edition with a fact in a type, and in a node of each of two queries.
const NARROW: &str = "
    01 02 0020
    02 70
    03 00
    03 03 ffff
    04 0000 0001 01 0000
    05 00000000 00000001 04
    05 00000002 00000003 0d 0000 0000
    06 0001
    05 00000000 0d0d0d0d 03 0000
    05 0d000000 0000000d 0d 0102 0000
    06 0001";

/// The same in the wide edition.
const WIDE: &str = "
    01 02 0020
    02 70
    03 00
    03 03 0000ffff
    04 0000 0001 01 0000
    05 00000000 00000001 04
    05 00000002 00000003 0d 00000000 0000
    06 0001
    05 00000000 0d0d0d0d 03 0000
    05 0d000000 0000000d 0d 00000102 0000
    06 0001";

fn convert(file: &[u8], from: Edition, bytes: usize) -> Answer {
    let limits = Limits {
        bytes,
        ..Limits::default()
    };
    judge::convert(file, from, &limits)
}

pub fn editions(group: &mut Group) {
    let (narrow, wide) = (lines(NARROW), lines(WIDE));
    let (out, back) = (Edition::Narrow, Edition::Wide);
    let mut same = |case: &str, found: Answer, expected: Answer| group.same(case, found, expected);
    let done = |file: &[u8]| Answer::Lines(file.to_vec());

    same("out", convert(&narrow, out, 65_536), done(&wide));
    same("back", convert(&wide, back, 65_536), done(&narrow));
    for (case, file, from, made) in [("out", &narrow, out, &wide), ("back", &wide, back, &narrow)] {
        same(case, convert(file, from, made.len()), done(made));
        let short = convert(file, from, made.len() - 1);
        same("12", short, Answer::Refused(12));
        let few = Limits {
            words: 16_383,
            ..Limits::default()
        };
        same("1", judge::convert(file, from, &few), Answer::Refused(1));
    }
    // Each edition's facts are too short or too long for the other.
    same("6 out", convert(&wide, out, 65_536), Answer::Refused(6));
    same("6 back", convert(&narrow, back, 65_536), Answer::Refused(6));
    let plain = lines(&format!("{NAMES}{FIRST}"));
    same("no fact, out", convert(&plain, out, 65_536), done(&plain));
    same("no fact, back", convert(&plain, back, 65_536), done(&plain));

    let with = |old: &str, new: &str| lines(&WIDE.replace(old, new));
    let large = |file: &[u8], bytes| convert(file, back, bytes);
    for (case, file, number) in [
        ("14 in a type", with("03 0000ffff", "03 00010000"), 14),
        ("14 in a node", with("0d 00000000", "0d ffffffff"), 14),
        (
            "14 in a later query",
            with("0d 00000102", "0d 80000102"),
            14,
        ),
        (
            "a later line's refusal before 14",
            with("03 0000ffff", "03 00010000\n    03 06"),
            6,
        ),
        (
            "the last line's refusal before 14",
            [&with("03 0000ffff", "03 00010000")[..], b"06000\n"].concat(),
            3,
        ),
        (
            "the missing 06 before 14",
            [
                &with("03 0000ffff", "03 00010000")[..],
                b"05000000000000000004\n",
            ]
            .concat(),
            4,
        ),
    ] {
        same(case, large(&file, 65_536), Answer::Refused(number));
        same(case, large(&file, 0), Answer::Refused(number));
    }
}

pub fn tally(group: &mut Group) {
    let of = |units, cents, remainder| Tally {
        units,
        cents,
        remainder,
    };
    let top = u32::MAX;
    for (case, before, visits, price, expected) in [
        ("nothing", of(0, 0, 0), 0, 65_535, Ok(of(0, 0, 0))),
        ("999", of(0, 0, 0), 999, 5, Ok(of(0, 0, 999))),
        // The visits that were left are charged at the price of the query that fills the thousand.
        ("one more", of(0, 0, 999), 1, 5, Ok(of(1, 5, 0))),
        (
            "a query",
            of(1, 5, 0),
            1_048_576,
            65_535,
            Ok(of(1_049, 68_680_685, 576)),
        ),
        (
            "the most visits",
            of(0, 0, 999),
            top,
            1,
            Ok(of(4_294_968, 4_294_968, 294)),
        ),
        ("a remainder of 1,000", of(0, 0, 1_000), 0, 0, Err(15)),
        (
            "units at the top",
            of(top, 0, 0),
            999,
            1,
            Ok(of(top, 0, 999)),
        ),
        ("units past the top", of(top, 0, 0), 1_000, 0, Err(15)),
        (
            "cents at the top",
            of(0, top, 0),
            1_000,
            0,
            Ok(of(1, top, 0)),
        ),
        (
            "cents to the top",
            of(0, top - 65_535, 0),
            1_000,
            65_535,
            Ok(of(1, top, 0)),
        ),
        (
            "cents past the top",
            of(0, top - 65_534, 0),
            1_000,
            65_535,
            Err(15),
        ),
        ("both past the top", of(top, top, 999), 1, 1, Err(15)),
        ("broken in two ways", of(top, top, 1_000), 1, 1, Err(15)),
    ] {
        group.same(case, before.add(visits, price), expected);
    }
}

pub fn cabinet(group: &mut Group) {
    let set_up = Cabinet::set_up;
    for (case, pool, shares, caps, passes) in [
        ("one desk", 0, vec![0], vec![0], true),
        ("no desk", 5, vec![], vec![], false),
        ("16 desks", 16, vec![1; 16], vec![1; 16], true),
        ("17 desks", 17, vec![1; 17], vec![1; 17], false),
        ("shares over the pool", 9, vec![5, 5], vec![5, 5], false),
        ("shares as the pool", 10, vec![5, 5], vec![5, 5], true),
        ("a cap under its share", 10, vec![5, 5], vec![5, 4], false),
        ("two lengths", 10, vec![5, 5], vec![5], false),
        // Their sum is 0 in 32 bits.
        (
            "shares that wrap",
            0,
            vec![1 << 28; 16],
            vec![1 << 28; 16],
            false,
        ),
    ] {
        group.same(case, set_up(pool, &shares, &caps).is_ok(), passes);
    }

    // Three desks: the pool is 1,000, of which 300 are nobody's.
    let day = set_up(1_000, &[400, 200, 100], &[500, 1_000, 100]).expect("it obeys the rules");
    let ceilings = |day: &Cabinet| [0, 1, 2, 3].map(|desk| day.ceiling(desk));
    let is = |a, b, c| [Ok(a), Ok(b), Ok(c), Err(17)];
    group.same("in the morning", ceilings(&day), is(500, 500, 100));
    let mut later = day.clone();
    later.charge(1, 450);
    group.same("after 450 at desk 1", ceilings(&later), is(450, 50, 100));
    later.charge(0, 450);
    group.same("and 450 at desk 0", ceilings(&later), is(0, 0, 100));
    group.same("a new day", later.new_day(), Ok(day.clone()));

    let used = |desk: usize, used| {
        let mut group = day.clone();
        group.desks[desk] = Desk {
            used,
            ..group.desks[desk]
        };
        group
    };
    group.same("a use past its cap", used(2, 101).ceiling(0), Err(17));
    group.same("uses past the pool", used(1, 501).ceiling(0), Err(17));
    group.same("uses as the pool", used(1, 500).ceiling(0), Ok(400));
    group.same("a broken group's new day", used(1, 501).new_day(), Err(17));
    let wide = set_up(u32::MAX, &[0, u32::MAX], &[u32::MAX; 2]).expect("it obeys the rules");
    group.same("the most of a query", wide.ceiling(1), Ok(1_048_576));
    group.same("nothing left", wide.ceiling(0), Ok(0));

    charged(group);
}

/// Files at a desk: what is charged, and which refusal.
fn charged(group: &mut Group) {
    // Two visits each, 45 bytes of answer, and 7 for each line 0b.
    let file = |queries: usize| lines(&format!("{NAMES}{}", format!("{FIRST}\n").repeat(queries)));
    let at = |cap: u32, file: &[u8], desk: usize, words: usize, bytes: usize| {
        let day = Cabinet::set_up(1_000, &[0, 10], &[cap, 10]).expect("it obeys the rules");
        let limits = Limits {
            words,
            bytes,
            visits: 0,
        };
        let (ran, after) = judge::answer_at(file, &limits, &day, desk);
        let number = match ran.answer {
            Answer::Refused(number) => number,
            _ => 0,
        };
        (number, after.desks[0].used)
    };
    let usual = |cap, file: &[u8]| at(cap, file, 0, 16_384, 65_536);
    group.same("enough", usual(6, &file(3)), (0, 6));
    group.same("the last is stopped", usual(5, &file(3)), (16, 5));
    group.same("the second is stopped", usual(3, &file(3)), (16, 3));
    group.same("nothing may be used", usual(0, &file(3)), (16, 0));
    let none = lines(super::examples::M);
    group.same("a query without visits", usual(0, &none), (0, 0));
    let short = |cap, bytes| at(cap, &file(3), 0, 16_384, bytes);
    group.same("12 is charged", short(6, 10), (12, 6));
    group.same("16 before 12", short(5, 10), (16, 5));
    group.same("no desk", at(6, &file(1), 2, 0, 0), (17, 0));
    group.same("1", at(6, &file(1), 0, 16_383, 0), (1, 0));
    group.same("3", usual(6, b"x"), (3, 0));
}
