//! Card 11: a test load that anyone can repeat.

use crate::Refusal;

/// No file of a seed is longer.
pub const LOAD: usize = 8255;

unsafe extern "C" {
    fn sigla_load(seed: u32, out: *mut u8, out_len: usize, length: *mut usize) -> u8;
}

/// The file of a seed (docs/FORMAT.md, "Test load"), the same on every machine: it stands at the start of `out`, and its length comes
/// back; zeros follow it. A slice that is shorter than the file is [`Refusal::AnswerTooLong`] and holds zeros.
///
/// ```
/// let mut out = vec![0; sigla::LOAD];
/// let n = sigla::load(7, &mut out)?;
/// assert!(out[..n].starts_with(b"01ffffff\n0261\n") && out[n..].iter().all(|&byte| byte == 0));
/// assert_eq!(sigla::load(7, &mut out[..n - 1]), Err(sigla::Refusal::AnswerTooLong));
/// assert!(out[..n - 1].iter().all(|&byte| byte == 0));
/// assert_eq!(sigla::load(7, &mut out[..n]), Ok(n));
/// # Ok::<(), sigla::Refusal>(())
/// ```
pub fn load(seed: u32, out: &mut [u8]) -> Result<usize, Refusal> {
    let mut length = 0;
    // SAFETY: the pointer goes with the length of the slice that it comes from, which is borrowed for writing; the other is that of a
    // local; the library keeps no pointer.
    let number = unsafe { sigla_load(seed, out.as_mut_ptr(), out.len(), &mut length) };
    Refusal::from_number(number).map_or(Ok(length), Err)
}
