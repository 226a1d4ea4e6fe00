//! The port's two text tests (crates/text_calls).
//!
//! ```c
//! // The number of characters, or the largest number where the bytes are no text.
//! uint64_t sigla_characters(const uint8_t *text, size_t text_len);
//! uint64_t sigla_characters_by_table(const uint8_t *text, size_t text_len);
//! ```

#[cfg(sigla_texts)]
unsafe extern "C" {
    fn sigla_characters(text: *const u8, text_len: usize) -> u64;
    fn sigla_characters_by_table(text: *const u8, text_len: usize) -> u64;
}

#[cfg(not(sigla_texts))]
unsafe fn sigla_characters(_: *const u8, _: usize) -> u64 {
    unreachable!("the port's text tests are not linked")
}

#[cfg(not(sigla_texts))]
unsafe fn sigla_characters_by_table(_: *const u8, _: usize) -> u64 {
    unreachable!("the port's text tests are not linked")
}

/// Whether the tests are linked; they are called only where they are.
pub const HAS: bool = cfg!(sigla_texts);

fn told(number: u64) -> Option<u64> {
    (number != u64::MAX).then_some(number)
}

// SAFETY, of both: the pointer goes with the slice's length, and the port keeps none.

/// The number of characters, or none where the bytes are no text: by leading ones.
pub fn characters(text: &[u8]) -> Option<u64> {
    told(unsafe { sigla_characters(text.as_ptr(), text.len()) })
}

/// The same by the table of byte classes.
pub fn characters_by_table(text: &[u8]) -> Option<u64> {
    told(unsafe { sigla_characters_by_table(text.as_ptr(), text.len()) })
}
