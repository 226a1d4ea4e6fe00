//! The cabinet of card 8: a pool of visits, and the desks that share it.
//!
//! The sentences of the card in their order, over natural numbers.

/// What a desk is sure of, what it may use at most, and what it has used today.
#[derive(Debug, Clone, Copy, Default, PartialEq, Eq)]
pub struct Desk {
    pub share: u32,
    pub cap: u32,
    pub used: u32,
}

/// The first `count` places are the desks.
#[derive(Debug, Clone, Default, PartialEq, Eq)]
pub struct Group {
    pub count: u32,
    pub pool: u32,
    pub desks: [Desk; 16],
}

/// The visits of a query alone.
pub const MOST_VISITS: u64 = 1_048_576;

/// A group as the port takes it: the number of desks, the pool, then share, cap and use of each place.
pub const GROUP_WORDS: usize = 2 + 3 * 16;

impl Group {
    /// A group of these desks with nothing used; or 17.
    pub fn set_up(pool: u32, shares: &[u32], caps: &[u32]) -> Result<Group, u8> {
        if shares.len() != caps.len() || shares.len() > 16 {
            return Err(17);
        }
        let mut group = Group {
            count: shares.len() as u32,
            pool,
            ..Group::default()
        };
        for (at, (share, cap)) in shares.iter().zip(caps).enumerate() {
            group.desks[at] = Desk {
                share: *share,
                cap: *cap,
                used: 0,
            };
        }
        if group.obeys() { Ok(group) } else { Err(17) }
    }

    /// From 1 to 16 desks; all shares together no more than the pool; a cap no lower than its share; no use over
    /// its cap; the larger of use and share, added up over the desks, no more than the pool.
    pub fn obeys(&self) -> bool {
        if !(1..=16).contains(&self.count) {
            return false;
        }
        let desks = &self.desks[..self.count as usize];
        let sum = |of: fn(&Desk) -> u32| desks.iter().map(|desk| u64::from(of(desk))).sum::<u64>();
        let pool = u64::from(self.pool);
        sum(|desk| desk.share) <= pool
            && desks.iter().all(|desk| desk.cap >= desk.share)
            && desks.iter().all(|desk| desk.used <= desk.cap)
            && sum(larger) <= pool
    }

    /// The smallest of three numbers: 1,048,576; the cap less the use; the pool less the use and less, for every
    /// other desk, the larger of that desk's use and share. Or 17.
    pub fn ceiling(&self, desk: usize) -> Result<u64, u8> {
        if !self.obeys() || desk >= self.count as usize {
            return Err(17);
        }
        let own = self.desks[desk];
        let mut left = u64::from(self.pool) - u64::from(own.used);
        for (at, other) in self.desks[..self.count as usize].iter().enumerate() {
            if at != desk {
                left -= u64::from(larger(other));
            }
        }
        let of_cap = u64::from(own.cap) - u64::from(own.used);
        Ok(MOST_VISITS.min(of_cap).min(left))
    }

    /// A new day sets each use to 0; or 17.
    pub fn new_day(&self) -> Result<Group, u8> {
        if !self.obeys() {
            return Err(17);
        }
        let mut next = self.clone();
        next.desks.iter_mut().for_each(|desk| desk.used = 0);
        Ok(next)
    }

    /// Visits that a query at the desk made, no more than its ceiling.
    pub fn charge(&mut self, desk: usize, visits: u64) {
        self.desks[desk].used += u32::try_from(visits).expect("no more than a ceiling");
    }

    /// The group as words.
    pub fn words(&self) -> [u32; GROUP_WORDS] {
        let mut words = [0; GROUP_WORDS];
        (words[0], words[1]) = (self.count, self.pool);
        for (place, desk) in words[2..].chunks_exact_mut(3).zip(&self.desks) {
            place.copy_from_slice(&[desk.share, desk.cap, desk.used]);
        }
        words
    }

    /// The group that words stand for, valid or not.
    pub fn of_words(words: &[u32; GROUP_WORDS]) -> Group {
        let mut group = Group {
            count: words[0],
            pool: words[1],
            ..Group::default()
        };
        for (desk, place) in group.desks.iter_mut().zip(words[2..].chunks_exact(3)) {
            *desk = Desk {
                share: place[0],
                cap: place[1],
                used: place[2],
            };
        }
        group
    }
}

fn larger(desk: &Desk) -> u32 {
    desk.used.max(desk.share)
}
