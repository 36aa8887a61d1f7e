//! Turns of updates, for programs with many more threads than processors.
//!
//! Where the system stopped a thread that has the lock of a node, updates of others yield until it runs again, and spin where they have locks
//! themselves. If one update is under way at a time, no update waits for the lock of another one; and who waits for a turn yields, and then
//! sleeps.

use std::sync::{Mutex, MutexGuard, PoisonError, TryLockError};
use std::thread::yield_now;

/// So often a thread yields the processor before it sleeps until its turn.
const TRIES: u32 = 8;

/// The turns of an index, of which one update has one at a time.
#[derive(Default)]
pub(crate) struct Turns(Mutex<()>);

impl Turns {
    /// Waits for a turn, which is over when the guard is dropped. Whoever has one may wait for readers, so a thread that is in a section asks
    /// for none.
    pub(crate) fn take(&self) -> MutexGuard<'_, ()> {
        for _ in 0..TRIES {
            match self.0.try_lock() {
                Ok(turn) => return turn,
                Err(TryLockError::Poisoned(turn)) => return turn.into_inner(),
                Err(TryLockError::WouldBlock) => yield_now(),
            }
        }
        self.0.lock().unwrap_or_else(PoisonError::into_inner)
    }
}
