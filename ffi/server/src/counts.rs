//! A count that workers keep together: each writes a number of its own, and whoever asks adds them up.

use std::sync::atomic::{AtomicI64, Ordering::Relaxed};

/// A number in lines of memory of its own.
#[repr(align(128))]
#[derive(Debug, Default)]
struct Apart(AtomicI64);

/// A number for each worker: what it added, less what it took away.
#[derive(Debug)]
pub(crate) struct Counts(Vec<Apart>);

impl Counts {
    /// All begin at 0.
    pub(crate) fn new(workers: usize) -> Counts {
        Counts((0..workers).map(|_| Apart::default()).collect())
    }

    /// Nobody but this worker may call it with its number.
    pub(crate) fn add(&self, worker: usize, by: i64) {
        let count = &self.0[worker].0;
        count.store(count.load(Relaxed) + by, Relaxed);
    }

    /// Where other workers count at this moment some of it may be in and some not.
    pub(crate) fn sum(&self) -> u64 {
        let sum: i64 = self.0.iter().map(|count| count.0.load(Relaxed)).sum();
        sum.max(0).unsigned_abs()
    }
}
