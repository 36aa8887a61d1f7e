//! Which values the updates under way compare with (Michael, "Hazard pointers: safe memory reclamation for lock-free objects", 2004).
//!
//! An update reads a value in a section, leaves that, and then replaces the value, or takes its pair out, where the index has its node still, by
//! a comparison of addresses. If that node could be given up meanwhile, another one might have its address, and would be taken for it. So the
//! update names the node before it leaves the section, and whoever took the node out first waits for the readers, and then until nobody names
//! it. The update has named it by then, since the wait for readers lasts until its section is left. A section that this wait doesn't wait for began
//! after it, and found another node.

use std::sync::atomic::{AtomicU64, Ordering::SeqCst};
use std::thread::yield_now;

/// No node has this word.
const NOTHING: u64 = 0;

/// For each handle of a map, by its place, the word of the node that its update compares with.
pub(crate) struct Hazards(Box<[Hazard]>);

/// In lines of its own it isn't slowed down by others' updates.
#[repr(align(128))]
struct Hazard(AtomicU64);

/// A node is named until this is dropped.
pub(crate) struct Named<'h>(&'h Hazard);

impl Drop for Named<'_> {
    fn drop(&mut self) {
        self.0 .0.store(NOTHING, SeqCst);
    }
}

impl Hazards {
    pub(crate) fn new(places: usize) -> Hazards {
        Hazards((0..places).map(|_| Hazard(AtomicU64::new(NOTHING))).collect())
    }

    /// The handle of this place names the node of this word, which a section has found that isn't left yet.
    pub(crate) fn name(&self, place: usize, word: u64) -> Named<'_> {
        let hazard = &self.0[place];
        hazard.0.store(word, SeqCst);
        Named(hazard)
    }

    /// Whether somebody names the node of this word, which was taken out and has no readers. Where nobody does, nobody will.
    pub(crate) fn is_named(&self, word: u64) -> bool {
        self.0.iter().any(|hazard| hazard.0.load(SeqCst) == word)
    }

    /// Waits until nobody names such a node. Whoever does will be told that the index doesn't have it, and waits for nobody who waits here: that
    /// one has no lock of the index and is in no section. But who takes a pair out may have to wait for readers first, so what waits for no reader
    /// doesn't wait here.
    pub(crate) fn outlast(&self, word: u64) {
        while self.is_named(word) {
            yield_now();
        }
    }
}

#[cfg(test)]
mod tests {
    use super::*;
    use std::sync::atomic::AtomicBool;
    use std::thread;
    use std::time::Duration;

    #[test]
    fn a_node_is_outlasted_when_it_is_named_no_more() {
        let hazards = Hazards::new(3);
        let named = hazards.name(2, 64);
        hazards.outlast(128);
        let is_over = AtomicBool::new(false);
        thread::scope(|scope| {
            scope.spawn(|| {
                hazards.outlast(64);
                is_over.store(true, SeqCst);
            });
            thread::sleep(Duration::from_millis(10));
            assert!(!is_over.load(SeqCst));
            drop(named);
        });
        assert!(is_over.load(SeqCst));
    }
}
