//! Work on all cores.

use std::sync::Mutex;
use std::thread;

pub fn threads() -> usize {
    thread::available_parallelism().map_or(1, usize::from)
}

/// Calls `work` on every part. A thread that is free takes the next part.
pub fn each<P: Send>(parts: impl Iterator<Item = P> + Send, work: impl Fn(P) + Sync) {
    let parts = Mutex::new(parts);
    let next = || parts.lock().expect("taking a part cannot fail").next();
    thread::scope(|scope| {
        for _ in 0..threads() {
            scope.spawn(|| {
                while let Some(part) = next() {
                    work(part);
                }
            });
        }
    });
}
