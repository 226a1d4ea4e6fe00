//! The cabinet of card 8, a second time: a day's visits by desk, over lists.

use crate::mutation::Switch;
use crate::reader::{self, WIDE};
use crate::{Answer, Limits, Ran, checker, sizes, written};

/// What a desk is sure of, what it may use at most, what it has used today.
#[derive(Clone, Copy, Debug, Default, PartialEq, Eq)]
pub struct Desk {
    pub share: u32,
    pub cap: u32,
    pub used: u32,
}

/// The pool and sixteen places, of which the first `count` are desks.
#[derive(Clone, Debug, Default, PartialEq, Eq)]
pub struct Group {
    pub count: u32,
    pub pool: u32,
    pub desks: [Desk; 16],
}

/// Mistakes at the desks, by name.
pub const DESKS: [&str; 22] = [
    "the ceiling is asked once for the file",
    "the own share is subtracted too",
    "the others' use is subtracted, not the larger of use and share",
    "the others' share is subtracted, not the larger of use and share",
    "the pool less all use",
    "the cap is not looked at",
    "the use is not taken from the cap",
    "1,048,576 is not looked at",
    "11 for 16",
    "16 for 11",
    "nothing is charged on a refusal",
    "nothing is charged on 12",
    "a query stopped is charged nothing",
    "a query stopped is charged once too much",
    "a later query runs after one was stopped",
    "12 ends the file's queries",
    "17 after 1",
    "a broken group passes a new day",
    "sums wrap at 32 bits",
    "a use past its cap passes",
    "a new day clears the shares too",
    "a refused set-up keeps its desks",
];

/// The calls of card 8, with a mistake or without.
#[derive(Clone, Copy, Debug)]
pub struct Day {
    pub mistake: Option<usize>,
}

impl Day {
    fn on(self, text: &str) -> bool {
        self.mistake.is_some_and(|at| DESKS[at] == text)
    }

    fn desks(group: &Group) -> &[Desk] {
        &group.desks[..group.count.min(16) as usize]
    }

    /// All as natural numbers, but for the mistake.
    fn sum(self, numbers: impl Iterator<Item = u32>) -> u64 {
        if self.on("sums wrap at 32 bits") {
            return u64::from(numbers.fold(0_u32, u32::wrapping_add));
        }
        numbers.map(u64::from).sum()
    }

    fn valid(self, group: &Group) -> bool {
        let desks = Day::desks(group);
        let larger = desks.iter().map(|desk| desk.used.max(desk.share));
        (1..=16).contains(&group.count)
            && self.sum(desks.iter().map(|desk| desk.share)) <= u64::from(group.pool)
            && self.sum(larger) <= u64::from(group.pool)
            && desks.iter().all(|desk| {
                desk.share <= desk.cap
                    && (desk.used <= desk.cap || self.on("a use past its cap passes"))
            })
    }

    /// The group with nothing used; or 17, and a group with no desks.
    pub fn setup(self, pool: u32, shares: &[u32], caps: &[u32]) -> (u8, Group) {
        let mut group = Group {
            count: shares.len().min(17) as u32,
            pool,
            ..Group::default()
        };
        for (place, (share, cap)) in group.desks.iter_mut().zip(shares.iter().zip(caps)) {
            (place.share, place.cap) = (*share, *cap);
        }
        if shares.len() == caps.len() && self.valid(&group) {
            return (0, group);
        }
        if self.on("a refused set-up keeps its desks") {
            return (17, group);
        }
        (17, Group::default())
    }

    /// What the desk may use before its next query, or 17.
    pub fn ceiling(self, group: &Group, desk: usize) -> (u8, u32) {
        if !self.valid(group) || desk >= Day::desks(group).len() {
            return (17, 0);
        }
        (0, self.least(group, desk))
    }

    fn least(self, group: &Group, at: usize) -> u32 {
        let desk = group.desks[at];
        let others = Day::desks(group)
            .iter()
            .enumerate()
            .filter(|(n, _)| *n != at);
        let kept = others.map(|(_, other)| match () {
            _ if self.on("the others' use is subtracted, not the larger of use and share")
                || self.on("the pool less all use") =>
            {
                other.used
            }
            _ if self.on("the others' share is subtracted, not the larger of use and share") => {
                other.share
            }
            _ => other.used.max(other.share),
        });
        let mut rest = i128::from(group.pool) - i128::from(desk.used) - i128::from(self.sum(kept));
        if self.on("the own share is subtracted too") {
            rest -= i128::from(desk.share);
        }
        let cap = match () {
            _ if self.on("the cap is not looked at") => i128::from(u32::MAX),
            _ if self.on("the use is not taken from the cap") => i128::from(desk.cap),
            _ => i128::from(desk.cap) - i128::from(desk.used),
        };
        let whole = match () {
            _ if self.on("1,048,576 is not looked at") => i128::from(u32::MAX),
            _ => 1_048_576,
        };
        // A mistake may pass below nothing.
        rest.min(cap).min(whole).clamp(0, i128::from(u32::MAX)) as u32
    }

    /// Each use 0 again, or 17.
    pub fn new_day(self, group: &Group) -> (u8, Group) {
        if !self.valid(group) && !self.on("a broken group passes a new day") {
            return (17, group.clone());
        }
        let mut next = group.clone();
        for desk in &mut next.desks {
            desk.used = 0;
            if self.on("a new day clears the shares too") {
                desk.share = 0;
            }
        }
        (0, next)
    }

    /// A file at a desk: what it gets, and the group after it.
    pub fn check(self, group: &Group, desk: usize, file: &[u8], limits: &Limits) -> (Ran, Group) {
        let right = Switch::new(None);
        let refused = |number| Ran::refused(number, Vec::new());
        if self.on("17 after 1")
            && let Some(number) = sizes(file, limits, right)
        {
            return (refused(number), group.clone());
        }
        if self.ceiling(group, desk).0 == 17 {
            return (refused(17), group.clone());
        }
        if let Some(number) = sizes(file, limits, right) {
            return (refused(number), group.clone());
        }
        let (tree, fault) = reader::read(file, WIDE, right);
        if let Some(number) = fault {
            return (refused(number), group.clone());
        }
        let mut after = group.clone();
        let first = self.least(group, desk);
        let mut states = Vec::new();
        let mut visits = Vec::new();
        let mut stopped = None;
        for rows in &tree.queries {
            let ceiling = match () {
                _ if self.on("the ceiling is asked once for the file") => first,
                _ => self.least(&after, desk),
            };
            let lent = Limits {
                visits: u64::from(ceiling),
                ..*limits
            };
            let (state, out) = checker::run(&tree, rows, None, &lent, right);
            visits.push(state.visits);
            let made = match out {
                Some(_) if self.on("a query stopped is charged nothing") => 0,
                Some(_) if self.on("a query stopped is charged once too much") => ceiling + 1,
                _ => state.visits as u32,
            };
            let used = &mut after.desks[desk].used;
            *used = used.saturating_add(made);
            if out.is_some() {
                let full = ceiling >= 1_048_576;
                stopped = Some(match () {
                    _ if self.on("11 for 16") => 11,
                    _ if self.on("16 for 11") => 16,
                    _ if full => 11,
                    _ => 16,
                });
                if self.on("a later query runs after one was stopped") {
                    continue;
                }
                break;
            }
            states.push(state);
            if self.on("12 ends the file's queries")
                && matches!(written(&states, limits, right).answer, Answer::Refused(12))
            {
                return (refused(12), after);
            }
        }
        if let Some(number) = stopped {
            if self.on("nothing is charged on a refusal") {
                after = group.clone();
            }
            return (Ran::refused(number, visits), after);
        }
        let ran = written(&states, limits, right);
        let late = matches!(ran.answer, Answer::Refused(_));
        if late
            && (self.on("nothing is charged on 12") || self.on("nothing is charged on a refusal"))
        {
            after = group.clone();
        }
        (ran, after)
    }
}
