//! A thread with a stack that the deepest files fit in, made once.

use std::cell::Cell;
use std::sync::mpsc::{Sender, channel};
use std::sync::{LazyLock, Mutex};
use std::thread;

use crate::{Group, Limits, Ran};

/// The stack is reserved and not used up: a page counts once it is touched.
const STACK: usize = 512 << 20;

thread_local! {
    static DEEP: Cell<bool> = const { Cell::new(false) };
}

/// Runs a whole program's work on one thread with the large stack, so that each `answer` within it
/// is a plain call.
pub fn on_large_stack<R: Send>(work: impl FnOnce() -> R + Send) -> R {
    thread::scope(|scope| {
        let worker = thread::Builder::new()
            .stack_size(STACK)
            .spawn_scoped(scope, || {
                DEEP.set(true);
                work()
            })
            .expect("a thread can be started");
        match worker.join() {
            Ok(result) => result,
            Err(thrown) => std::panic::resume_unwind(thrown),
        }
    })
}

/// One file handed to the worker, and where its answer goes.
type Order = (Vec<u8>, Limits, Sender<Ran>);

/// The worker for callers on a thread of their own.
static WORKER: LazyLock<Mutex<Sender<Order>>> = LazyLock::new(|| {
    let (orders, inbox) = channel::<Order>();
    thread::Builder::new()
        .stack_size(STACK)
        .spawn(move || {
            DEEP.set(true);
            for (file, limits, reply) in inbox {
                // Nobody may be waiting any more; that is theirs to know.
                let _ = reply.send(crate::answer_here(&file, &limits));
            }
        })
        .expect("a thread can be started");
    Mutex::new(orders)
});

/// The answer to a file at a desk, and the group after it. Call it on a thread with the large stack.
pub fn answer_at(file: &[u8], limits: &Limits, group: &Group, desk: usize) -> (Ran, Group) {
    assert!(DEEP.get(), "call it from within on_large_stack");
    crate::answer_at_here(file, limits, group, desk)
}

/// The answer to a file, found on a thread with the large stack: this one if it has it.
pub fn answer(file: &[u8], limits: &Limits) -> Ran {
    if DEEP.get() {
        return crate::answer_here(file, limits);
    }
    let (reply, answer) = channel();
    WORKER
        .lock()
        .expect("the worker's door is free")
        .send((file.to_vec(), *limits, reply))
        .expect("the worker is running");
    answer.recv().expect("the judge came to an answer")
}
