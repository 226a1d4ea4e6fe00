//! The port's comparison of two files (card 14), in the library of the check.
//!
//! ```c
//! // 0, or the first premise that fails; `work` is then zero throughout.
//! uint8_t sigla_growth(const uint8_t *old, size_t old_len, const uint8_t *new_file, size_t new_len,
//!                      uint32_t *work, size_t work_len);
//! ```

#[cfg(sigla_growth)]
unsafe extern "C" {
    fn sigla_growth(
        old: *const u8,
        old_len: usize,
        new: *const u8,
        new_len: usize,
        work: *mut u32,
        work_len: usize,
    ) -> u8;
}

/// Whether it is linked.
pub const HAS: bool = cfg!(sigla_growth);

/// The first premise that fails. Call it only where `HAS`.
#[cfg(sigla_growth)]
pub fn growth(old: &[u8], new: &[u8], work: &mut [u32]) -> u8 {
    // SAFETY: as in `check`.
    unsafe {
        sigla_growth(
            old.as_ptr(),
            old.len(),
            new.as_ptr(),
            new.len(),
            work.as_mut_ptr(),
            work.len(),
        )
    }
}

#[cfg(not(sigla_growth))]
pub fn growth(_old: &[u8], _new: &[u8], _work: &mut [u32]) -> u8 {
    unreachable!("the port's comparison of two files is not linked")
}
