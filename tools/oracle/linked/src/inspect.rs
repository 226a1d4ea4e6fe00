//! The port's plain solver (card 12), in the library of the check.
//!
//! ```c
//! // 0, and `told` is 1 (success), 0 (failure), 2 (shut out) or 3 (fewer); or the refusal's number. After a success
//! // the bindings stand in `lent` up to the first zero in the place of an 11; else it is zero, as `work` always is.
//! uint8_t sigla_inspect(const uint8_t *file, size_t file_len, uint32_t n, uint32_t *work, size_t work_len,
//!                       uint32_t *lent, size_t lent_len, uint32_t *told);
//! ```

#[cfg(sigla_inspect)]
unsafe extern "C" {
    fn sigla_inspect(
        file: *const u8,
        file_len: usize,
        n: u32,
        work: *mut u32,
        work_len: usize,
        lent: *mut u32,
        lent_len: usize,
        told: *mut u32,
    ) -> u8;
}

/// Whether it is linked.
pub const HAS: bool = cfg!(sigla_inspect);

/// The refusal's number or 0, and what is told of the n-th entry. Call it only where `HAS`.
#[cfg(sigla_inspect)]
pub fn inspect(file: &[u8], n: u32, work: &mut [u32], lent: &mut [u32]) -> (u8, u32) {
    let mut told = u32::MAX;
    // SAFETY: as in `check`.
    let number = unsafe {
        sigla_inspect(
            file.as_ptr(),
            file.len(),
            n,
            work.as_mut_ptr(),
            work.len(),
            lent.as_mut_ptr(),
            lent.len(),
            &mut told,
        )
    };
    (number, told)
}

#[cfg(not(sigla_inspect))]
pub fn inspect(_file: &[u8], _n: u32, _work: &mut [u32], _lent: &mut [u32]) -> (u8, u32) {
    unreachable!("the port's plain solver is not linked")
}
