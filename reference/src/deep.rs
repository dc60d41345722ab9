//! A big stack for work on deep terms.
//!
//! The reader and the dropping of terms use a list in place of the stack. All
//! other functions call themselves once for each level of nesting, which
//! question 3 keeps at 32. Terms read without limits may be far deeper; work
//! on those belongs inside `on_big_stack`.

use std::thread;

const BYTES: usize = 1 << 30;

/// Runs `work` on a thread of its own with a stack of a gibibyte, of which
/// only the pages touched are taken.
pub fn on_big_stack<T: Send>(work: impl FnOnce() -> T + Send) -> T {
    thread::scope(|scope| {
        thread::Builder::new()
            .stack_size(BYTES)
            .spawn_scoped(scope, work)
            .expect("a thread can be started")
            .join()
            .expect("the work does not panic")
    })
}
