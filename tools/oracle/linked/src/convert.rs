//! The port's two converters (card 6), in the library of the check.
//!
//! ```c
//! // 0 where the file is converted, its lines then standing in `out` up to the first zero byte; else the
//! // refusal's number.
//! uint8_t sigla_widen(const uint8_t *file, size_t file_len, uint32_t *work, size_t work_len,
//!                     uint8_t *out, size_t out_len);
//! uint8_t sigla_narrow(...); // the same
//! ```

#[cfg(sigla_convert)]
unsafe extern "C" {
    fn sigla_widen(
        file: *const u8,
        file_len: usize,
        work: *mut u32,
        work_len: usize,
        out: *mut u8,
        out_len: usize,
    ) -> u8;
    fn sigla_narrow(
        file: *const u8,
        file_len: usize,
        work: *mut u32,
        work_len: usize,
        out: *mut u8,
        out_len: usize,
    ) -> u8;
}

/// Whether the converters are linked.
pub const HAS: bool = cfg!(sigla_convert);

/// Out to the wide edition. Call it only where `HAS`.
#[cfg(sigla_convert)]
pub fn widen(file: &[u8], work: &mut [u32], out: &mut [u8]) -> u8 {
    // SAFETY: as in `check`.
    unsafe {
        sigla_widen(
            file.as_ptr(),
            file.len(),
            work.as_mut_ptr(),
            work.len(),
            out.as_mut_ptr(),
            out.len(),
        )
    }
}

/// Back to the narrow one. Call it only where `HAS`.
#[cfg(sigla_convert)]
pub fn narrow(file: &[u8], work: &mut [u32], out: &mut [u8]) -> u8 {
    // SAFETY: as in `check`.
    unsafe {
        sigla_narrow(
            file.as_ptr(),
            file.len(),
            work.as_mut_ptr(),
            work.len(),
            out.as_mut_ptr(),
            out.len(),
        )
    }
}

#[cfg(not(sigla_convert))]
pub fn widen(_file: &[u8], _work: &mut [u32], _out: &mut [u8]) -> u8 {
    unreachable!("the port's converters are not linked")
}

#[cfg(not(sigla_convert))]
pub fn narrow(_file: &[u8], _work: &mut [u32], _out: &mut [u8]) -> u8 {
    unreachable!("the port's converters are not linked")
}
