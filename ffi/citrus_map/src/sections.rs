//! Which thread is in a section by which handle. An update waits for readers, and keeps locks meanwhile: so a thread that reads by one handle
//! and updates by another would wait for itself, and is refused.

use std::cell::Cell;
use std::sync::atomic::{AtomicU64, Ordering::Relaxed};

/// The number of no thread.
const NOBODY: u64 = 0;

thread_local! {
    /// The number of this thread, [`NOBODY`] until it enters its first section.
    static NUMBER: Cell<u64> = const { Cell::new(NOBODY) };
    /// So many sections this thread has entered and not left. There are fewer where a guard was forgotten and another thread left its section.
    static ENTERED: Cell<usize> = const { Cell::new(0) };
}

/// No two threads of the process have the same number, and the first ones are small.
pub(crate) fn number_of_this_thread() -> u64 {
    static NEXT: AtomicU64 = AtomicU64::new(NOBODY + 1);
    NUMBER.with(|number| {
        if number.get() == NOBODY {
            number.set(NEXT.fetch_add(1, Relaxed));
        }
        number.get()
    })
}

/// For each handle of an index, by its place, the thread that is in a section by it.
///
/// A thread is asked of its own sections alone. It wrote their places itself, and then nobody else did: so `Relaxed` is enough.
pub(crate) struct Sections(Box<[Place]>);

/// Each section writes its place. In lines of its own it doesn't take them from other threads.
#[repr(align(128))]
struct Place(AtomicU64);

impl Sections {
    pub(crate) fn new(places: usize) -> Sections {
        Sections((0..places).map(|_| Place(AtomicU64::new(NOBODY))).collect())
    }

    /// This thread has entered a section by the handle of this place, which was in none.
    pub(crate) fn enter(&self, place: usize) {
        self.0[place].0.store(number_of_this_thread(), Relaxed);
        ENTERED.with(|entered| entered.set(entered.get() + 1));
    }

    /// The section of this place was left, if one was open.
    pub(crate) fn leave(&self, place: usize) {
        if self.0[place].0.load(Relaxed) == NUMBER.with(Cell::get) && self.is_open(place) {
            ENTERED.with(|entered| entered.set(entered.get() - 1));
        }
        self.0[place].0.store(NOBODY, Relaxed);
    }

    /// Whether the handle of this place is in a section.
    pub(crate) fn is_open(&self, place: usize) -> bool {
        self.0[place].0.load(Relaxed) != NOBODY
    }

    /// Whether this thread is in a section by another handle than that of this place.
    pub(crate) fn is_inside_by_another(&self, place: usize) -> bool {
        let is_own = |(other, its): (usize, &Place)| other != place && its.0.load(Relaxed) == NUMBER.with(Cell::get);
        ENTERED.with(Cell::get) > 0 && self.0.iter().enumerate().any(is_own)
    }
}

#[cfg(test)]
mod tests {
    use super::*;
    use std::thread;

    #[test]
    fn a_thread_is_inside_until_its_section_is_left() {
        let (one, other) = (Sections::new(3), Sections::new(3));
        one.enter(1);
        assert!(one.is_inside_by_another(0) && one.is_inside_by_another(2));
        assert!(!one.is_inside_by_another(1) && !other.is_inside_by_another(0));
        one.enter(2);
        one.leave(1);
        assert!(one.is_inside_by_another(1) && !one.is_inside_by_another(2));
        one.leave(2);
        assert!(!one.is_inside_by_another(1));
        assert_eq!(ENTERED.with(Cell::get), 0);
    }

    #[test]
    fn a_section_is_its_threads_alone_and_any_thread_may_leave_it() {
        let sections = Sections::new(2);
        sections.enter(0);
        thread::scope(|scope| {
            scope.spawn(|| {
                assert!(!sections.is_inside_by_another(1));
                sections.leave(0);
                sections.leave(0);
                assert_eq!(ENTERED.with(Cell::get), 0);
            });
        });
        assert!(!sections.is_open(0) && !sections.is_inside_by_another(1));
    }
}
