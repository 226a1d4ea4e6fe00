//! The port's calls of cards 7 and 8, in the library of the check: the tally of visits, and the group of desks.
//! A tally goes as three words, a group as fifty: the number of desks, the pool, then share, cap and use of each
//! place. bindings/c/sigla.h has the same as structs.

/// The words of a group.
pub type Group = [u32; 50];

#[cfg(sigla_desks)]
unsafe extern "C" {
    fn sigla_tally(tally: *mut [u32; 3], visits: u32, price: u16) -> u8;
    fn sigla_set_up(
        group: *mut Group,
        pool: u32,
        shares: *const u32,
        shares_len: usize,
        caps: *const u32,
        caps_len: usize,
    ) -> u8;
    fn sigla_ceiling(group: *const Group, desk: usize, visits: *mut u32) -> u8;
    fn sigla_new_day(group: *mut Group) -> u8;
    fn sigla_check_at(
        group: *mut Group,
        desk: usize,
        file: *const u8,
        file_len: usize,
        work: *mut u32,
        work_len: usize,
        answer: *mut u8,
        answer_len: usize,
    ) -> u8;
}

/// Whether these calls are linked.
pub const HAS: bool = cfg!(sigla_desks);

// Call what follows only where `HAS`.
//
// SAFETY of each: every pointer goes with the length of the slice that it comes from or is that of an array, none
// overlaps another, and the port keeps none of them.
#[cfg(sigla_desks)]
mod calls {
    use super::*;

    pub fn tally(tally: &mut [u32; 3], visits: u32, price: u16) -> u8 {
        unsafe { sigla_tally(tally, visits, price) }
    }

    pub fn set_up(pool: u32, shares: &[u32], caps: &[u32], group: &mut Group) -> u8 {
        unsafe {
            sigla_set_up(
                group,
                pool,
                shares.as_ptr(),
                shares.len(),
                caps.as_ptr(),
                caps.len(),
            )
        }
    }

    pub fn ceiling(group: &Group, desk: usize) -> (u8, u32) {
        let mut visits = u32::MAX;
        let number = unsafe { sigla_ceiling(group, desk, &mut visits) };
        (number, visits)
    }

    pub fn new_day(group: &mut Group) -> u8 {
        unsafe { sigla_new_day(group) }
    }

    pub fn check_at(
        group: &mut Group,
        desk: usize,
        file: &[u8],
        work: &mut [u32],
        answer: &mut [u8],
    ) -> u8 {
        unsafe {
            sigla_check_at(
                group,
                desk,
                file.as_ptr(),
                file.len(),
                work.as_mut_ptr(),
                work.len(),
                answer.as_mut_ptr(),
                answer.len(),
            )
        }
    }
}

#[cfg(not(sigla_desks))]
mod calls {
    use super::Group;

    const NONE: &str = "the port's desks are not linked";

    pub fn tally(_tally: &mut [u32; 3], _visits: u32, _price: u16) -> u8 {
        unreachable!("{NONE}")
    }

    pub fn set_up(_pool: u32, _shares: &[u32], _caps: &[u32], _group: &mut Group) -> u8 {
        unreachable!("{NONE}")
    }

    pub fn ceiling(_group: &Group, _desk: usize) -> (u8, u32) {
        unreachable!("{NONE}")
    }

    pub fn new_day(_group: &mut Group) -> u8 {
        unreachable!("{NONE}")
    }

    pub fn check_at(
        _group: &mut Group,
        _desk: usize,
        _file: &[u8],
        _work: &mut [u32],
        _answer: &mut [u8],
    ) -> u8 {
        unreachable!("{NONE}")
    }
}

pub use calls::{ceiling, check_at, new_day, set_up, tally};
