//! What a thread does between two tries of a call that others are in the way of.

use std::thread;
use std::time::Duration;

/// So often it yields the processor, before it sleeps.
const YIELDS: u32 = 200;

/// So long it sleeps then.
const MOMENT: Duration = Duration::from_micros(100);

/// The rests of one call.
#[derive(Default)]
pub(crate) struct Rests(u32);

impl Rests {
    /// Lets others go on.
    pub(crate) fn rest(&mut self) {
        #[cfg(test)]
        crate::schedule::go_over();
        if self.0 < YIELDS {
            self.0 += 1;
            thread::yield_now();
        } else {
            thread::sleep(MOMENT);
        }
    }
}
