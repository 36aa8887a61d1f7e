//! What all workers know of the server: when it began, and how many connections it has and had.

use std::sync::atomic::{AtomicU64, AtomicUsize, Ordering::Relaxed};
use std::time::{Duration, Instant};

/// One for a server and all of its workers.
#[derive(Debug)]
pub(crate) struct Census {
    begin: Instant,
    /// Where it listens.
    pub(crate) port: u16,
    /// So many connections it has at most.
    pub(crate) most: usize,
    /// How many connections were handed over.
    received: AtomicU64,
    /// How many each worker has.
    loads: Vec<AtomicUsize>,
}

impl Census {
    pub(crate) fn new(workers: usize, port: u16, most: usize) -> Census {
        let loads = (0..workers).map(|_| AtomicUsize::new(0)).collect();
        Census { begin: Instant::now(), port, most, received: AtomicU64::new(0), loads }
    }

    /// How long the server has been there.
    pub(crate) fn age(&self) -> Duration {
        self.begin.elapsed()
    }

    /// One connection more, of this worker.
    pub(crate) fn came(&self, worker: usize) {
        self.loads[worker].fetch_add(1, Relaxed);
    }

    /// So many fewer.
    pub(crate) fn went(&self, worker: usize, connections: usize) {
        self.loads[worker].fetch_sub(connections, Relaxed);
    }

    /// The number of a connection that comes now: no other one has it, and the first has 1.
    pub(crate) fn next_number(&self) -> u64 {
        self.received.fetch_add(1, Relaxed) + 1
    }

    /// How many connections were handed over.
    pub(crate) fn received(&self) -> u64 {
        self.received.load(Relaxed)
    }

    /// How many connections the worker has.
    pub(crate) fn load(&self, worker: usize) -> usize {
        self.loads[worker].load(Relaxed)
    }

    /// How many connections there are.
    pub(crate) fn connections(&self) -> usize {
        (0..self.loads.len()).map(|worker| self.load(worker)).sum()
    }
}
