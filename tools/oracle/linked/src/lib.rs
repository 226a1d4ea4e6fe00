//! The port's functions, in process, where its static libraries were there when this was built.
//!
//! The C signatures, agreed with the port:
//!
//! ```c
//! // 0 where the file is accepted, the answer's bytes then standing in `answer` up to the first
//! // zero byte; else the refusal's number.
//! uint8_t sigla_check(const uint8_t *file, size_t file_len, uint32_t *work, size_t work_len,
//!                     uint8_t *answer, size_t answer_len);
//! // 0, and `lit` is 1 where a query has a diagnostic and else 0; or the refusal's number.
//! uint8_t sigla_lamp(const uint8_t *file, size_t file_len, uint32_t *work, size_t work_len, uint32_t *lit);
//! // For the comparison alone, of a library of its own: 0 where the file passes refusals 1 to 10, what it
//! // says then standing in `work`; else the refusal's number, and `work` is zero throughout.
//! uint8_t sigla_read(const uint8_t *file, size_t file_len, uint32_t *work, size_t work_len);
//! ```

pub mod calls;
pub mod convert;
pub mod desks;
pub mod growth;
pub mod inspect;
pub mod stack;
pub mod texts;

#[cfg(any(sigla_check, sigla_lamp, sigla_read))]
unsafe extern "C" {
    #[cfg(sigla_check)]
    fn sigla_check(
        file: *const u8,
        file_len: usize,
        work: *mut u32,
        work_len: usize,
        answer: *mut u8,
        answer_len: usize,
    ) -> u8;
    #[cfg(sigla_lamp)]
    fn sigla_lamp(file: *const u8, file_len: usize, work: *mut u32, work_len: usize, lit: *mut u32) -> u8;
    #[cfg(sigla_read)]
    fn sigla_read(file: *const u8, file_len: usize, work: *mut u32, work_len: usize) -> u8;
}

/// Whether the port's check is linked.
pub const HAS_CHECK: bool = cfg!(sigla_check);
/// Whether the port's lamp is linked.
pub const HAS_LAMP: bool = cfg!(sigla_lamp);
/// Whether the port's reading is linked.
pub const HAS_READ: bool = cfg!(sigla_read);

/// The port's check of a file. Call it only where `HAS_CHECK`.
#[cfg(sigla_check)]
pub fn check(file: &[u8], work: &mut [u32], answer: &mut [u8]) -> u8 {
    // SAFETY: each pointer goes with the length of the slice it comes from, the slices do not
    // overlap, and the port keeps none of them.
    unsafe {
        sigla_check(
            file.as_ptr(),
            file.len(),
            work.as_mut_ptr(),
            work.len(),
            answer.as_mut_ptr(),
            answer.len(),
        )
    }
}

#[cfg(not(sigla_check))]
pub fn check(_file: &[u8], _work: &mut [u32], _answer: &mut [u8]) -> u8 {
    unreachable!("the port's check is not linked")
}

/// The port's lamp of a file: the number, and whether it is lit. Call it only where `HAS_LAMP`.
#[cfg(sigla_lamp)]
pub fn lamp(file: &[u8], work: &mut [u32]) -> (u8, u32) {
    let mut lit = u32::MAX;
    // SAFETY: as in `check`.
    let number = unsafe { sigla_lamp(file.as_ptr(), file.len(), work.as_mut_ptr(), work.len(), &mut lit) };
    (number, lit)
}

#[cfg(not(sigla_lamp))]
pub fn lamp(_file: &[u8], _work: &mut [u32]) -> (u8, u32) {
    unreachable!("the port's lamp is not linked")
}

/// The port's reading of a file. Call it only where `HAS_READ`.
#[cfg(sigla_read)]
pub fn read(file: &[u8], work: &mut [u32]) -> u8 {
    // SAFETY: as in `check`.
    unsafe { sigla_read(file.as_ptr(), file.len(), work.as_mut_ptr(), work.len()) }
}

#[cfg(not(sigla_read))]
pub fn read(_file: &[u8], _work: &mut [u32]) -> u8 {
    unreachable!("the port's reading is not linked")
}
