//! The calls of card 8, however they are made. A group goes as its words.

use judge::{GROUP_WORDS, Group, Limits};

pub type Words = [u32; GROUP_WORDS];

/// What a check at a desk leaves.
#[derive(Debug, Clone, PartialEq)]
pub struct Checked {
    /// 0, or the refusal's number.
    pub number: u8,
    pub group: Words,
    /// Whether the work slice is zero throughout.
    pub clean: bool,
    pub answer: Vec<u8>,
}

pub trait Cabinet {
    fn name(&self) -> &'static str;
    /// 0 or 17, and the group.
    fn set_up(&self, pool: u32, shares: &[u32], caps: &[u32]) -> (u8, Words);
    /// 0 or 17, and the ceiling, 0 with 17.
    fn ceiling(&self, group: &Words, desk: usize) -> (u8, u32);
    /// 0 or 17, and the group after it.
    fn new_day(&self, group: &Words) -> (u8, Words);
    fn check(&self, group: &Words, desk: usize, file: &[u8], limits: &Limits) -> Checked;
}

/// The definition, in the judge. A check that the Rust can't hold is none.
pub struct Defined;

impl Defined {
    pub fn set_up(&self, pool: u32, shares: &[u32], caps: &[u32]) -> (u8, Words) {
        match Group::set_up(pool, shares, caps) {
            Ok(group) => (0, group.words()),
            Err(number) => (number, [0; GROUP_WORDS]),
        }
    }

    pub fn ceiling(&self, group: &Words, desk: usize) -> (u8, u32) {
        match Group::of_words(group).ceiling(desk) {
            Ok(ceiling) => (0, ceiling as u32),
            Err(number) => (number, 0),
        }
    }

    pub fn new_day(&self, group: &Words) -> (u8, Words) {
        match Group::of_words(group).new_day() {
            Ok(next) => (0, next.words()),
            Err(number) => (number, *group),
        }
    }

    /// The outcome, and the visits of each query that ran.
    pub fn check(
        &self,
        group: &Words,
        desk: usize,
        file: &[u8],
        limits: &Limits,
    ) -> Option<(Checked, Vec<u64>)> {
        let (ran, after) = judge::answer_at(file, limits, &Group::of_words(group), desk);
        let (number, mut answer) = match ran.answer {
            judge::Answer::Lines(lines) => (0, lines),
            judge::Answer::Refused(number) => (number, vec![]),
            judge::Answer::LeftOut(_) => return None,
        };
        answer.resize(limits.bytes, 0);
        let checked = Checked {
            number,
            group: after.words(),
            clean: true,
            answer,
        };
        Some((checked, ran.visits))
    }
}

/// The second reading, right or with a mistake.
pub struct Modelled(pub model::Day);

fn modelled(words: &Words) -> model::Group {
    let mut group = model::Group {
        count: words[0],
        pool: words[1],
        ..model::Group::default()
    };
    for (desk, place) in group.desks.iter_mut().zip(words[2..].chunks_exact(3)) {
        *desk = model::Desk {
            share: place[0],
            cap: place[1],
            used: place[2],
        };
    }
    group
}

fn words(group: &model::Group) -> Words {
    let mut words = [0; GROUP_WORDS];
    (words[0], words[1]) = (group.count, group.pool);
    for (place, desk) in words[2..].chunks_exact_mut(3).zip(&group.desks) {
        place.copy_from_slice(&[desk.share, desk.cap, desk.used]);
    }
    words
}

impl Cabinet for Modelled {
    fn name(&self) -> &'static str {
        "model"
    }

    fn set_up(&self, pool: u32, shares: &[u32], caps: &[u32]) -> (u8, Words) {
        let (number, group) = self.0.setup(pool, shares, caps);
        (number, words(&group))
    }

    fn ceiling(&self, group: &Words, desk: usize) -> (u8, u32) {
        self.0.ceiling(&modelled(group), desk)
    }

    fn new_day(&self, group: &Words) -> (u8, Words) {
        let (number, group) = self.0.new_day(&modelled(group));
        (number, words(&group))
    }

    fn check(&self, group: &Words, desk: usize, file: &[u8], limits: &Limits) -> Checked {
        let lent = trial::as_model(limits);
        let (ran, after) = self.0.check(&modelled(group), desk, file, &lent);
        let (number, mut answer) = match ran.answer {
            model::Answer::Lines(lines) => (0, lines),
            model::Answer::Refused(number) => (number, vec![]),
        };
        answer.resize(limits.bytes, 0);
        Checked {
            number,
            group: words(&after),
            clean: true,
            answer,
        }
    }
}

/// The port. Use it only where `linked::desks::HAS`.
pub struct Linked;

impl Cabinet for Linked {
    fn name(&self) -> &'static str {
        "library"
    }

    fn set_up(&self, pool: u32, shares: &[u32], caps: &[u32]) -> (u8, Words) {
        let mut group = [u32::MAX; GROUP_WORDS];
        let number = linked::desks::set_up(pool, shares, caps, &mut group);
        (number, group)
    }

    fn ceiling(&self, group: &Words, desk: usize) -> (u8, u32) {
        linked::desks::ceiling(group, desk)
    }

    fn new_day(&self, group: &Words) -> (u8, Words) {
        let mut next = *group;
        let number = linked::desks::new_day(&mut next);
        (number, next)
    }

    fn check(&self, group: &Words, desk: usize, file: &[u8], limits: &Limits) -> Checked {
        let mut next = *group;
        let mut work = vec![u32::MAX; limits.words];
        let mut answer = vec![0xff; limits.bytes];
        let number = linked::desks::check_at(&mut next, desk, file, &mut work, &mut answer);
        Checked {
            number,
            group: next,
            clean: work.iter().all(|word| *word == 0),
            answer,
        }
    }
}
