use crate::handle::{ends, KeyedHandle};
use crate::library::*;
use crate::rest::Rests;
use crate::{Error, Key};
use std::ops::RangeBounds;

/// A wait for readers that a handle began: see [`KeyedHandle::begin`].
#[derive(Clone, Copy, Debug, PartialEq, Eq, Hash)]
pub struct Cookie {
    index: u64,
    place: usize,
    /// What the library calls it; none where there are no keys, and so no readers.
    number: Option<u64>,
}

/// How far a wait for readers is.
#[derive(Clone, Copy, Debug, PartialEq, Eq, Hash)]
pub enum GracePeriod {
    /// Each section with a key of the range that was entered before the begin has been left. It is told once.
    Over,
    /// A reader is left. Ask again.
    UnderWay,
    /// The handle's wait under way isn't that of the cookie: that it is over was told already, or another wait of the handle took its place,
    /// or the cookie is another handle's.
    Displaced,
}

/// What a [`tidy`](KeyedHandle::tidy) did.
#[derive(Clone, Copy, Debug, PartialEq, Eq, Hash)]
pub struct Tidied<K = u64> {
    /// So many turns were made.
    pub made: u32,
    /// The key to go on with, where the range isn't finished.
    pub next: Option<K>,
}

/// Waits for readers.
impl<K: Key> KeyedHandle<K> {
    /// Waits until each section with a key of the range that was entered before the call has been left: lookups, and those of
    /// [`hold`](KeyedHandle::hold) and [`enter`](KeyedHandle::enter). While one is left it yields the processor, and after 200 times it sleeps for
    /// moments. It takes the place of a wait that was begun before.
    ///
    /// # Errors
    /// [`Error::Holds`], [`Error::Spent`], [`Error::Lost`]: then it isn't known that they have been left.
    ///
    /// ```
    /// let index = citrus_map::Index::new(100, 1)?;
    /// let handle = index.handle()?;
    /// handle.wait(5..=5)?;
    /// handle.wait(..)?;
    /// # Ok::<(), citrus_map::Error>(())
    /// ```
    pub fn wait(&self, keys: impl RangeBounds<K>) -> Result<(), Error> {
        let (low, high) = match ends(&keys) {
            Some(ends) => ends,
            None => return Ok(()),
        };
        self.may_wait()?;
        let cookie = self.begin_for(low, high)?;
        let mut rests = Rests::default();
        loop {
            match self.poll(cookie)? {
                GracePeriod::Over => return Ok(()),
                GracePeriod::UnderWay => rests.rest(),
                GracePeriod::Displaced => panic!("the library citrus gave up the handle's latest wait, which citrus.h excludes"),
            }
        }
    }

    /// Begins such a wait and comes back at once; [`poll`](KeyedHandle::poll) tells when it is over. A handle has one wait under way: any other
    /// takes its place, and so does a removal or an insertion that waits for readers. A wait that the handle would begin for the slots that it
    /// keeps back doesn't. So poll until the end is told: before that the handle gives no slots back without standing still.
    ///
    /// # Errors
    /// [`Error::Spent`] and [`Error::Lost`].
    ///
    /// ```
    /// use citrus_map::GracePeriod;
    ///
    /// let index = citrus_map::Index::new(100, 1)?;
    /// let handle = index.handle()?;
    /// let cookie = handle.begin(0..10)?;
    /// assert_eq!(handle.poll(cookie)?, GracePeriod::Over);
    /// assert_eq!(handle.poll(cookie)?, GracePeriod::Displaced);
    /// # Ok::<(), citrus_map::Error>(())
    /// ```
    pub fn begin(&self, keys: impl RangeBounds<K>) -> Result<Cookie, Error> {
        match ends(&keys) {
            Some((low, high)) => self.begin_for(low, high),
            None => Ok(self.cookie(None)),
        }
    }

    fn cookie(&self, number: Option<u64>) -> Cookie {
        Cookie { index: self.index_number(), place: self.place(), number }
    }

    /// Begins a wait for the keys from `low` to `high`, both among them.
    fn begin_for(&self, low: u64, high: u64) -> Result<Cookie, Error> {
        let mut number = 0;
        // SAFETY: as in `get`.
        match self.call(|raw| unsafe { citrus_begin(raw, low, high, &mut number) }) {
            status::DONE => Ok(self.cookie(Some(number))),
            status => Err(self.error(status)),
        }
    }

    /// Tells how far the wait of this cookie is. It waits for nobody. A range without keys has no readers: its wait is over whenever it is
    /// asked for.
    ///
    /// # Errors
    /// [`Error::Lost`] alone.
    pub fn poll(&self, cookie: Cookie) -> Result<GracePeriod, Error> {
        if (cookie.index, cookie.place) != (self.index_number(), self.place()) {
            return Ok(GracePeriod::Displaced);
        }
        let number = match cookie.number {
            Some(number) => number,
            None => return Ok(GracePeriod::Over),
        };
        // SAFETY: as in `get`.
        match self.call(|raw| unsafe { citrus_poll(raw, number) }) {
            status::DONE => Ok(GracePeriod::Over),
            status::UNCHANGED => Ok(GracePeriod::UnderWay),
            status::MOVED => Ok(GracePeriod::Displaced),
            status => Err(self.error(status)),
        }
    }

    /// Makes the tree shallow above the keys of the range, for later lookups: it goes to the first 256 of them in order and turns nodes on the
    /// way, until so many turns were tried. 0 turns are taken as 1. No pair changes. Insertions do the same on their own ways, so this is
    /// for a tree that nobody puts to any more. A turn takes two slots that are free; an index with more pairs than it was made for may have none.
    /// Where it isn't finished it tells the key to go on with:
    ///
    /// # Errors
    /// [`Error::Full`] where no slot was free for a turn; it may have made turns before. [`Error::Holds`], [`Error::NoMemory`],
    /// [`Error::Spent`].
    ///
    /// ```
    /// let index = citrus_map::Index::new(1_000, 1)?;
    /// let handle = index.handle()?;
    /// for key in 0..1_000 {
    ///     handle.insert(key, key)?;
    /// }
    /// let mut from = Some(0);
    /// while let Some(low) = from {
    ///     from = handle.tidy(low.., 64)?.next;
    /// }
    /// assert_eq!(handle.len()?, 1_000);
    /// # Ok::<(), citrus_map::Error>(())
    /// ```
    pub fn tidy(&self, keys: impl RangeBounds<K>, turns: u32) -> Result<Tidied<K>, Error> {
        let (low, high) = match ends(&keys) {
            Some(ends) => ends,
            None => return Ok(Tidied { made: 0, next: None }),
        };
        let (mut made, mut next) = (0, 0);
        // SAFETY: as in `get`.
        match self.call_in_turn(|raw| unsafe { citrus_tidy_once(raw, low, high, turns.max(1), &mut made, &mut next) })? {
            status::DONE => Ok(Tidied { made, next: None }),
            status::MORE => Ok(Tidied { made, next: Some(K::decode(next)) }),
            status => Err(self.error(status)),
        }
    }
}
