//! The files that are made for a limit meet it exactly.

use std::collections::BTreeSet;

use model::{Answer, Limits, answer};

fn visits_of(style: &str, seed: u64) -> u64 {
    let limits = Limits {
        visits: 1 << 30,
        ..Limits::default()
    };
    answer(&files::generate(style, seed), &limits, None).visits[0]
}

#[test]
fn visits() {
    let seen: BTreeSet<u64> = (0..60).map(|seed| visits_of("visits", seed)).collect();
    let wanted: BTreeSet<u64> = (1_048_575..=1_048_578).collect();
    assert_eq!(seen, wanted);
}

#[test]
fn visits_by_the_judge() {
    for seed in 0..12 {
        let file = files::generate("visits", seed);
        let ran = judge::answer(&file, &judge::Limits::default());
        let wanted = visits_of("visits", seed).min(1_048_576);
        if !matches!(ran.answer, judge::Answer::LeftOut(_)) {
            assert_eq!(ran.visits, [wanted]);
        }
    }
}

#[test]
fn answers() {
    let limits = Limits {
        bytes: 100_000,
        ..Limits::default()
    };
    let length = |seed| match answer(&files::generate("long-answer", seed), &limits, None).answer {
        Answer::Lines(lines) => lines.len(),
        Answer::Refused(number) => panic!("refused {number}"),
    };
    let seen: BTreeSet<usize> = (0..30).map(length).collect();
    assert_eq!(seen, (65_535..=65_537).collect());
}

#[test]
fn answers_that_end_in_a_message() {
    let limits = judge::Limits {
        bytes: 100_000,
        ..judge::Limits::default()
    };
    let length = |seed| {
        let file = files::generate("message-last", seed);
        let judge::Answer::Lines(lines) = judge::answer(&file, &limits).answer else {
            panic!("refused");
        };
        assert!(trial::ends_in_a_message(&lines));
        lines.len()
    };
    let seen: BTreeSet<usize> = (0..30).map(length).collect();
    assert_eq!(seen, (65_535..=65_537).collect());
}

#[test]
fn answers_that_end_in_a_name_written_once() {
    let limits = judge::Limits {
        bytes: 100_000,
        ..judge::Limits::default()
    };
    let length = |seed| {
        let file = files::generate("once-last", seed);
        let judge::Answer::Lines(lines) = judge::answer(&file, &limits).answer else {
            panic!("refused");
        };
        let last = lines.split_inclusive(|byte| *byte == b'\n').nth_back(1);
        assert!(last.is_some_and(|line| line.starts_with(b"0c")));
        lines.len()
    };
    let seen: BTreeSet<usize> = (0..30).map(length).collect();
    assert_eq!(seen, (65_535..=65_537).collect());
}

#[test]
fn as_many_names_written_once_as_nodes() {
    let lines = |seed| {
        let file = files::generate("once-most", seed);
        let judge::Answer::Lines(lines) =
            judge::answer(&file, &judge::Limits::default()).answer
        else {
            panic!("refused");
        };
        lines
            .split(|byte| *byte == b'\n')
            .filter(|line| line.starts_with(b"0c"))
            .count()
    };
    assert!((0..30).map(lines).max() > Some(490));
}

#[test]
fn files_for_the_time_of_messages() {
    for (name, file) in files::speaking() {
        let ran = judge::answer(&file, &judge::Limits::default());
        let judge::Answer::Lines(lines) = &ran.answer else {
            panic!("{name}: {:?}", ran.answer);
        };
        println!(
            "{name}: {} diagnostics, {} bytes",
            ran.codes.len(),
            lines.len()
        );
        if let Some(count) = name.strip_prefix("diagnostics-") {
            assert_eq!(ran.codes.len().to_string(), count);
        }
        assert!(!ran.codes.is_empty(), "{name}");
    }
}

#[test]
fn each_text_comes_up() {
    let mut seen = BTreeSet::new();
    for n in 0..3_000 {
        let (_, file) = trial::file(5, n);
        seen.extend(judge::answer(&file, &judge::Limits::default()).texts);
    }
    assert_eq!(seen, judge::TEXTS.into());
}

#[test]
fn each_refusal_comes_up() {
    let mut seen = BTreeSet::new();
    for n in 0..60_000 {
        let (_, file) = trial::file(7, n);
        let plain = answer(&file, &Limits::default(), None);
        for limits in trial::lent(trial::nth(7, n), &plain) {
            if let Answer::Refused(number) = answer(&file, &trial::as_model(&limits), None).answer {
                seen.insert(number);
            }
        }
    }
    assert_eq!(seen, (1..=13).collect());
}

#[test]
fn files_are_made_smaller() {
    let usual = Limits::default();
    let place = |wanted: &str| model::MUTATIONS.iter().position(|m| m.0 == wanted);
    let wrong = place("a failed bind is undone");
    let mut differs =
        |file: &[u8]| answer(file, &usual, None).answer != answer(file, &usual, wrong).answer;
    let telling = (0..)
        .map(|n| trial::file(3, n).1)
        .find(|file| differs(file));
    let telling = telling.expect("the files do not end");
    let small = trial::shrink(&telling, &mut differs);
    assert!(differs(&small) && small.len() < telling.len());
    assert!(small.len() < 400, "{}", String::from_utf8_lossy(&small));
}
