//! Pieces of work on every processor.

use std::panic::{AssertUnwindSafe, catch_unwind};
use std::sync::atomic::{AtomicBool, AtomicU64, Ordering};
use std::thread;

/// Does pieces 0, 1, 2 .. until one answers false or fails; the first failure. A piece takes its seed from its number, so
/// that what is compared does not depend on the processors. The Rust stops where it overflows; then the piece is named.
pub fn each(work: impl Fn(u64) -> Result<bool, String> + Sync) -> Result<(), String> {
    let (next, stopped) = (AtomicU64::new(0), AtomicBool::new(false));
    let worker = || {
        while !stopped.load(Ordering::Relaxed) {
            let piece = next.fetch_add(1, Ordering::Relaxed);
            let done = catch_unwind(AssertUnwindSafe(|| work(piece)));
            let done = done.unwrap_or_else(|_| Err(format!("piece {piece} stopped by itself")));
            if done != Ok(true) {
                stopped.store(done.is_err(), Ordering::Relaxed);
                return done.map(|_| ());
            }
        }
        Ok(())
    };
    let count = thread::available_parallelism().map_or(1, usize::from);
    thread::scope(|scope| {
        let threads: Vec<_> = (0..count).map(|_| scope.spawn(worker)).collect();
        let ended: Vec<_> = threads.into_iter().map(|t| t.join().expect("a worker stopped")).collect();
        ended.into_iter().collect()
    })
}
