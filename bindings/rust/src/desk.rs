//! The tally of card 7 and the desks of card 8.

use crate::{Answer, BYTES, Failure, Refusal, WORDS};

/// Units of 1,000 visits, cents, and the visits that fill no unit yet.
#[repr(C)]
#[derive(Clone, Copy, Debug, Default, PartialEq, Eq)]
pub struct Tally {
    /// Full thousands of visits.
    pub units: u32,
    /// What they cost.
    pub cents: u32,
    /// 0 to 999 visits.
    pub remainder: u32,
}

/// What a desk is sure of, what it may use at most, and what it has used today.
#[repr(C)]
#[derive(Clone, Copy, Debug, Default, PartialEq, Eq)]
pub struct Desk {
    /// Visits that no other desk can take from it.
    pub share: u32,
    /// The most visits that it may make in a day, no less than its share.
    pub cap: u32,
    /// The visits that it has made today.
    pub used: u32,
}

/// The desks of a cabinet with a daily pool of visits: the first `count` places, from 0.
#[repr(C)]
#[derive(Clone, Copy, Debug, Default, PartialEq, Eq)]
pub struct Group {
    /// How many desks there are, 1 to 16.
    pub count: u32,
    /// The visits of a day for all of them.
    pub pool: u32,
    /// Those from `count` on are none.
    pub desks: [Desk; 16],
}

unsafe extern "C" {
    fn sigla_tally(tally: *mut Tally, visits: u32, price: u16) -> u8;
    fn sigla_set_up(group: *mut Group, pool: u32, shares: *const u32, shares_len: usize, caps: *const u32, caps_len: usize) -> u8;
    fn sigla_ceiling(group: *const Group, desk: usize, visits: *mut u32) -> u8;
    fn sigla_new_day(group: *mut Group) -> u8;
    fn sigla_check_at(
        group: *mut Group,
        desk: usize,
        file: *const u8,
        file_len: usize,
        work: *mut u32,
        work_len: usize,
        answer: *mut u8,
        answer_len: usize,
    ) -> u8;
}

fn told(number: u8) -> Result<(), Refusal> {
    Refusal::from_number(number).map_or(Ok(()), Err)
}

impl Tally {
    /// A query's visits at its price in cents; or [`Refusal::TallyTooLarge`], and the tally stays.
    ///
    /// ```
    /// let mut tally = sigla::Tally::default();
    /// tally.add(2_500, 7)?;
    /// assert_eq!(tally, sigla::Tally { units: 2, cents: 14, remainder: 500 });
    /// # Ok::<(), sigla::Refusal>(())
    /// ```
    pub fn add(&mut self, visits: u32, price: u16) -> Result<(), Refusal> {
        // SAFETY: the pointer is that of a tally borrowed for writing, three words as the library has them; none is kept.
        told(unsafe { sigla_tally(self, visits, price) })
    }
}

impl Group {
    /// A desk for each share and cap, unused; or [`Refusal::OutsideTheRules`].
    ///
    /// A day at three desks:
    ///
    /// ```
    /// let file = b"01020020\n05000000000000000000\n060000\n";
    /// let mut group = sigla::Group::set_up(3_000_000, &[1_000_000, 500_000, 0], &[3_000_000, 500_000, 2_000_000])?;
    /// assert_eq!(group.ceiling(0)?, 1_048_576);
    /// assert_eq!(group.ceiling(1)?, 500_000);
    /// let (mut work, mut answer) = (vec![0; sigla::WORDS], vec![0; sigla::BYTES]);
    /// let n = group.check(2, file, &mut work, &mut answer)?;
    /// assert_eq!(&answer[..n], b"07000000\n0900000000\n");
    /// assert_eq!(group.ceiling(3), Err(sigla::Refusal::OutsideTheRules));
    /// group.new_day()?;
    /// # Ok::<(), sigla::Refusal>(())
    /// ```
    pub fn set_up(pool: u32, shares: &[u32], caps: &[u32]) -> Result<Group, Refusal> {
        let mut group = Group::default();
        // SAFETY: each pointer goes with the length of the slice that it comes from; the group is fifty words as the library has them.
        told(unsafe { sigla_set_up(&mut group, pool, shares.as_ptr(), shares.len(), caps.as_ptr(), caps.len()) })?;
        Ok(group)
    }

    /// The visits that a desk may make now; or [`Refusal::OutsideTheRules`].
    pub fn ceiling(&self, desk: usize) -> Result<u32, Refusal> {
        let mut visits = 0;
        // SAFETY: the group is fifty words, and the word for the visits is this function's own.
        told(unsafe { sigla_ceiling(self, desk, &mut visits) })?;
        Ok(visits)
    }

    /// Each use is 0 again; or [`Refusal::OutsideTheRules`], and the group stays.
    pub fn new_day(&mut self) -> Result<(), Refusal> {
        // SAFETY: the group is fifty words, borrowed for writing.
        told(unsafe { sigla_new_day(self) })
    }

    /// As [`crate::check`], each query under the desk's ceiling of that moment, and charged to it.
    pub fn check(&mut self, desk: usize, file: &[u8], work: &mut [u32], answer: &mut [u8]) -> Result<usize, Refusal> {
        // SAFETY: as of `check`; the group is fifty words, borrowed for writing.
        let number = unsafe {
            sigla_check_at(self, desk, file.as_ptr(), file.len(), work.as_mut_ptr(), work.len(), answer.as_mut_ptr(), answer.len())
        };
        told(number)?;
        Ok(crate::length(answer))
    }

    /// As [`Group::check`], with slices of its own, and the answer parsed.
    ///
    /// ```
    /// let mut group = sigla::Group::set_up(100, &[100], &[100])?;
    /// let answer = group.answer(0, b"01020020\n05000000000000000000\n060000\n")?;
    /// assert!(answer.is_clean());
    /// # Ok::<(), sigla::Failure>(())
    /// ```
    pub fn answer(&mut self, desk: usize, file: &[u8]) -> Result<Answer, Failure> {
        let mut work = vec![0u32; WORDS];
        let mut answer = vec![0u8; BYTES];
        let n = self.check(desk, file, &mut work, &mut answer)?;
        Ok(Answer::parse(&answer[..n])?)
    }
}
