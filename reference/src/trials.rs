//! Long tests on both cores.

use std::sync::Mutex;
use std::thread;

/// Tries each of a list, on two threads, the first ones first. If one fails, so does
/// this.
pub fn try_each<T: Send>(list: Vec<T>, one: impl Fn(T) + Sync) {
    let list = Mutex::new(list.into_iter());
    let next = || list.lock().expect("no thread fails here").next();
    thread::scope(|scope| {
        for _ in 0..2 {
            scope.spawn(|| {
                while let Some(item) = next() {
                    one(item);
                }
            });
        }
    });
}
