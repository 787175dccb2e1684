//! Work on as many threads as there are processors.
use std::ops::Range;
use std::sync::atomic::{AtomicUsize, Ordering};

/// All numbers below a count, so many together.
pub fn share<F: Fn(Range<usize>) + Sync>(count: usize, together: usize, work: F) {
    let next = AtomicUsize::new(0);
    let threads = std::thread::available_parallelism().map_or(2, |n| n.get());
    std::thread::scope(|scope| {
        for _ in 0..threads {
            scope.spawn(|| loop {
                let from = next.fetch_add(together, Ordering::Relaxed);
                if from >= count {
                    break;
                }
                work(from..count.min(from + together));
            });
        }
    });
}
