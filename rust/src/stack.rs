//! Machine stack for the calls.
use std::cell::Cell;
use std::io;

/// The stack of the thread that [`with_stack`] starts. The deepest call is known to pass in 8 MiB.
pub const STACK: usize = 64 << 20;

thread_local!(static ENOUGH: Cell<bool> = const { Cell::new(false) });

/// Runs a task in a thread with enough machine stack for every call, or right here if this is such a thread already.
///
/// Every call of this crate goes through here, but for `calls::layout` and `calls::layout_pending`, which need next to no stack: so none can
/// run out of it. A program that makes many calls puts this round all of them once, which saves a thread for each.
///
/// # Panics
/// If the task does, or if the system gives no thread.
pub fn with_stack<T: Send>(task: impl FnOnce() -> T + Send) -> T {
    try_with_stack(task).expect("the system gives a thread")
}

/// [`with_stack`], with the system's error where it gives no thread.
pub fn try_with_stack<T: Send>(task: impl FnOnce() -> T + Send) -> io::Result<T> {
    if ENOUGH.get() {
        return Ok(task());
    }
    std::thread::scope(|scope| {
        let marked = || {
            ENOUGH.set(true);
            task()
        };
        let thread = std::thread::Builder::new().stack_size(STACK).spawn_scoped(scope, marked)?;
        Ok(thread.join().unwrap_or_else(|panic| std::panic::resume_unwind(panic)))
    })
}
