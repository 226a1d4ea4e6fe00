//! The port's calls on the substitution, over the words of a work slice.
//!
//! The C signatures, agreed with the port:
//!
//! ```c
//! void sigla_begin(uint32_t *work, size_t work_len);
//! uint32_t sigla_fresh(uint32_t *work, size_t work_len);
//! uint32_t sigla_reserve(uint32_t *work, size_t work_len, uint32_t fields);
//! void sigla_put_field(uint32_t *work, size_t work_len, uint32_t at, uint32_t name, uint32_t tag,
//!                      uint32_t payload);
//! uint32_t sigla_new_record(uint32_t *work, size_t work_len, uint32_t from, uint32_t fields);
//! uint32_t sigla_snapshot(const uint32_t *work, size_t work_len);
//! void sigla_rollback(uint32_t *work, size_t work_len, uint32_t mark);
//! // 0 for success, 1 mismatch, 2 union mismatch, 3 unknown field, 4 infinite, 5 out of visits; `out`
//! // gets the visits left and the field's name.
//! uint32_t sigla_unify(uint32_t *work, size_t work_len, uint32_t found_tag, uint32_t found,
//!                      uint32_t expected_tag, uint32_t expected, uint32_t left, uint32_t *out,
//!                      size_t out_len);
//! ```

/// The port's functions, or stand-ins that nobody calls.
macro_rules! port {
    ($(fn $name:ident($($argument:ident: $ty:ty),*) $(-> $result:ty)?;)*) => {
        #[cfg(sigla_calls)]
        unsafe extern "C" {
            $(fn $name($($argument: $ty),*) $(-> $result)?;)*
        }
        $(
            #[cfg(not(sigla_calls))]
            #[allow(clippy::too_many_arguments)]
            unsafe fn $name($(_: $ty),*) $(-> $result)? {
                unreachable!("the port's calls are not linked")
            }
        )*
    };
}

port! {
    fn sigla_begin(work: *mut u32, work_len: usize);
    fn sigla_fresh(work: *mut u32, work_len: usize) -> u32;
    fn sigla_reserve(work: *mut u32, work_len: usize, fields: u32) -> u32;
    fn sigla_put_field(
        work: *mut u32, work_len: usize, at: u32, name: u32, tag: u32, payload: u32
    );
    fn sigla_new_record(work: *mut u32, work_len: usize, from: u32, fields: u32) -> u32;
    fn sigla_snapshot(work: *const u32, work_len: usize) -> u32;
    fn sigla_rollback(work: *mut u32, work_len: usize, mark: u32);
    fn sigla_unify(
        work: *mut u32, work_len: usize, found_tag: u32, found: u32, expected_tag: u32,
        expected: u32, left: u32, out: *mut u32, out_len: usize
    ) -> u32;
}

// SAFETY, of each call below: a pointer goes with the length of the slice it comes from, the slices
// do not overlap, the port takes any words and keeps no pointer.

/// Whether the calls are linked; they are made only where they are.
pub const HAS: bool = cfg!(sigla_calls);

/// A type in hand.
#[derive(Debug, Clone, Copy, PartialEq)]
pub struct Ty {
    pub tag: u32,
    pub payload: u32,
}

/// How a unification ended.
#[derive(Debug, Clone, Copy, PartialEq)]
pub struct Unified {
    /// 0 to 5, as the port has them.
    pub number: u32,
    /// The visits left.
    pub left: u32,
    /// The field's name where there is one, else 0.
    pub name: u32,
}

/// A list starts here.
pub fn begin(work: &mut [u32]) {
    unsafe { sigla_begin(work.as_mut_ptr(), work.len()) }
}

/// A new unknown: its number.
pub fn fresh(work: &mut [u32]) -> u32 {
    unsafe { sigla_fresh(work.as_mut_ptr(), work.len()) }
}

/// Room for so many fields: where they start.
pub fn reserve(work: &mut [u32], fields: u32) -> u32 {
    unsafe { sigla_reserve(work.as_mut_ptr(), work.len(), fields) }
}

/// The field at a place.
pub fn put_field(work: &mut [u32], at: u32, name: u32, ty: Ty) {
    unsafe {
        sigla_put_field(work.as_mut_ptr(), work.len(), at, name, ty.tag, ty.payload);
    }
}

/// A record of fields that were put: its cell, or 0 where there is no room.
pub fn new_record(work: &mut [u32], from: u32, fields: u32) -> u32 {
    unsafe { sigla_new_record(work.as_mut_ptr(), work.len(), from, fields) }
}

pub fn snapshot(work: &[u32]) -> u32 {
    unsafe { sigla_snapshot(work.as_ptr(), work.len()) }
}

/// Back to what `snapshot` gave.
pub fn rollback(work: &mut [u32], mark: u32) {
    unsafe { sigla_rollback(work.as_mut_ptr(), work.len(), mark) }
}

pub fn unify(work: &mut [u32], found: Ty, expected: Ty, left: u32) -> Unified {
    let mut out = [u32::MAX; 2];
    let number = unsafe {
        sigla_unify(
            work.as_mut_ptr(),
            work.len(),
            found.tag,
            found.payload,
            expected.tag,
            expected.payload,
            left,
            out.as_mut_ptr(),
            out.len(),
        )
    };
    Unified {
        number,
        left: out[0],
        name: out[1],
    }
}
