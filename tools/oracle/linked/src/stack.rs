//! The port's check on a thread whose stack is painted first, so that what it used can be told.

use std::ffi::{c_int, c_void};

/// As large as the C library's `pthread_attr_t` and larger.
#[repr(C, align(16))]
struct Attributes([u8; 256]);

unsafe extern "C" {
    fn pthread_attr_init(attributes: *mut Attributes) -> c_int;
    fn pthread_attr_setstack(attributes: *mut Attributes, stack: *mut c_void, size: usize)
    -> c_int;
    fn pthread_create(
        thread: *mut usize,
        attributes: *const Attributes,
        start: extern "C" fn(*mut c_void) -> *mut c_void,
        argument: *mut c_void,
    ) -> c_int;
    fn pthread_join(thread: usize, result: *mut *mut c_void) -> c_int;
}

/// What the stack is painted with.
const PAINT: u64 = 0xa5a5_5a5a_c3c3_3c3c;
/// The stack that is lent; the port has never come near it.
const STACK: usize = 8 << 20;
const PAGE: usize = 4096;

/// A call that the thread makes.
struct Order<'a> {
    file: Option<&'a [u8]>,
    work: &'a mut [u32],
    answer: &'a mut [u8],
    number: u8,
}

extern "C" fn start(order: *mut c_void) -> *mut c_void {
    // SAFETY: `used` hands over an order that outlives the thread, and looks at it only afterwards.
    let order = unsafe { &mut *order.cast::<Order>() };
    if let Some(file) = order.file {
        order.number = crate::check(file, order.work, order.answer);
    }
    std::ptr::null_mut()
}

/// Stacks of this kind: painted again for each call.
pub struct Painted {
    words: Vec<u64>,
    /// What a thread uses that makes no call.
    idle: usize,
}

impl Painted {
    pub fn new() -> Result<Self, String> {
        let mut painted = Painted {
            words: vec![PAINT; (STACK + PAGE) / 8],
            idle: 0,
        };
        painted.idle = painted.deepest(&mut Order {
            file: None,
            work: &mut [],
            answer: &mut [],
            number: 0,
        })?;
        Ok(painted)
    }

    /// The bytes of stack that the check of a file uses, beside what an idle thread does; and the refusal's
    /// number, 0 for none.
    pub fn used(
        &mut self,
        file: &[u8],
        work: &mut [u32],
        answer: &mut [u8],
    ) -> Result<(usize, u8), String> {
        let mut order = Order {
            file: Some(file),
            work,
            answer,
            number: 0,
        };
        let deepest = self.deepest(&mut order)?;
        Ok((deepest.saturating_sub(self.idle), order.number))
    }

    /// Runs a thread on the painted stack: the bytes from its top down to the lowest word that is not painted
    /// any more.
    fn deepest(&mut self, order: &mut Order) -> Result<usize, String> {
        let from = self.words.as_ptr() as usize;
        let start_at = from.next_multiple_of(PAGE);
        let first = (start_at - from) / 8;
        // What the call before left is painted over.
        let used = self.words[first..].iter().position(|word| *word != PAINT);
        if let Some(used) = used {
            self.words[first + used..].fill(PAINT);
        }
        let mut attributes = Attributes([0; 256]);
        let mut thread = 0;
        // SAFETY: the words are this object's alone, stay where they are and outlive the thread, which is joined
        // here; the order does so too.
        let failed = unsafe {
            let stack = self.words.as_mut_ptr().add(first).cast::<c_void>();
            pthread_attr_init(&mut attributes) != 0
                || pthread_attr_setstack(&mut attributes, stack, STACK) != 0
                || pthread_create(&mut thread, &attributes, start, (&raw mut *order).cast()) != 0
                || pthread_join(thread, std::ptr::null_mut()) != 0
        };
        if failed {
            return Err("no thread could be made on a stack of its own".to_owned());
        }
        let stack = &self.words[first..first + STACK / 8];
        let lowest = std::hint::black_box(stack)
            .iter()
            .position(|word| *word != PAINT);
        Ok(lowest.map_or(0, |at| STACK - 8 * at))
    }
}
