//! What the tests of string maps share: values that tell whether they are there still.

use citrus_map::Waiter;
use std::sync::atomic::{AtomicUsize, Ordering::SeqCst};
use std::sync::Arc;

pub const WAITERS: [Waiter; 3] = [Waiter::Eer, Waiter::Domain, Waiter::Deer];

const LIVE: u64 = 0x11ee_11ee_11ee_11ee;

/// Carries its string and a number, counts how many there are, and tells whether it was dropped before.
pub struct Counted {
    live: u64,
    text: Box<[u8]>,
    number: u64,
    count: Arc<AtomicUsize>,
}

impl Counted {
    pub fn new(text: &[u8], number: u64, count: &Arc<AtomicUsize>) -> Counted {
        count.fetch_add(1, SeqCst);
        Counted { live: LIVE, text: text.into(), number, count: Arc::clone(count) }
    }

    /// Its number, where it is there and of this string.
    pub fn number(&self, text: &[u8]) -> u64 {
        assert_eq!(self.live, LIVE, "read after it was dropped");
        assert_eq!(&self.text[..], text, "the value of another string");
        self.number
    }
}

impl Drop for Counted {
    fn drop(&mut self) {
        assert_eq!(self.live, LIVE, "dropped twice");
        // SAFETY: a store to a field of our own, which the compiler can't leave out.
        unsafe { std::ptr::write_volatile(&mut self.live, 0xdead) };
        self.count.fetch_sub(1, SeqCst);
    }
}
