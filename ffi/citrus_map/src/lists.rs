use crate::handle::{ends, KeyedHandle};
use crate::library::*;
use crate::ranges::PAGE_ROOM;
use crate::{Error, Key, MAX_ROOM};
use std::ops::RangeBounds;

/// Pairs of a key range as they were at one moment, and where to go on.
#[derive(Clone, Debug, PartialEq, Eq)]
pub struct Page<K = u64> {
    /// Key and value of each pair, keys ascending, or descending on a [`page_down`](KeyedHandle::page_down).
    pub pairs: Vec<(K, u64)>,
    /// The key after them in the range at that moment, where there were more than fitted.
    pub next: Option<K>,
}

/// A page as the library tells it, by words.
pub(crate) struct RawPage {
    pub(crate) pairs: Vec<RawPair>,
    pub(crate) next: Option<u64>,
}

/// A pair by its key.
pub(crate) fn decoded<K: Key>(RawPair { key, value }: RawPair) -> (K, u64) {
    (K::decode(key), value)
}

/// The same with its keys.
fn page_of<K: Key>(RawPage { pairs, next }: RawPage) -> Page<K> {
    Page { pairs: pairs.into_iter().map(decoded).collect(), next: next.map(K::decode) }
}

/// A list of the library, up or down.
pub(crate) type RawList = unsafe extern "C" fn(*mut RawHandle, u64, u64, *mut RawPair, usize, *mut usize, *mut u64) -> i32;

/// Lists of key ranges, and the first and the last pair. They take no lock of a node and need no tickets.
///
/// Each page, and each pair alone, is exact at one moment. Where an update came in each of four tries, updates are kept off for one walk
/// more, some 30 ns a pair, and other threads' updates wait meanwhile: so where others mustn't wait long, ask for short pages.
impl<K: Key> KeyedHandle<K> {
    /// All pairs with keys in the range as they were at one moment of the call, keys ascending. A range without keys, as `9..3`, has no
    /// pairs.
    ///
    /// It goes over the range again where there are more pairs than it made room for. [`page`](KeyedHandle::page) doesn't, and so suits long
    /// ranges beside many updates.
    ///
    /// # Errors
    /// [`Error::TooLong`] where the range has more than [`MAX_ROOM`] pairs, [`Error::NoMemory`].
    ///
    /// ```
    /// let index = citrus_map::Index::new(100, 1)?;
    /// let handle = index.handle()?;
    /// for key in [3, 1, 2] {
    ///     handle.insert(key, 10 * key)?;
    /// }
    /// assert_eq!(handle.list(2..)?, [(2, 20), (3, 30)]);
    /// assert_eq!(handle.list(..=1)?, [(1, 10)]);
    /// # Ok::<(), citrus_map::Error>(())
    /// ```
    pub fn list(&self, keys: impl RangeBounds<K>) -> Result<Vec<(K, u64)>, Error> {
        let (low, high) = match ends(&keys) {
            Some(ends) => ends,
            None => return Ok(Vec::new()),
        };
        // Each time there is room for sixteen times as many.
        for room in (8..30).step_by(4).map(|bits| 1 << bits).chain([MAX_ROOM]) {
            let page = self.list_from(low, high, room)?;
            if page.next.is_none() {
                return Ok(page.pairs);
            }
        }
        Err(Error::TooLong)
    }

    /// The first pairs with keys in the range, as they were at one moment of the call, keys ascending: as many as there is room for, and
    /// the key after them. Room for 0 pairs is taken as 1, and for more than [`MAX_ROOM`] as that. All of the room is asked of the system in
    /// advance, twice.
    ///
    /// Page by page a range of any length can be read, as [`range`](KeyedHandle::range) does. Each page is exact at a moment of its own, later
    /// than that of the page before.
    ///
    /// # Errors
    /// [`Error::NoMemory`].
    ///
    /// ```
    /// let index = citrus_map::Index::new(100, 1)?;
    /// let handle = index.handle()?;
    /// for key in 0..10 {
    ///     handle.insert(key, key * key)?;
    /// }
    /// let mut sum = 0;
    /// let mut from = Some(0);
    /// while let Some(low) = from {
    ///     let page = handle.page(low.., 4)?;
    ///     sum += page.pairs.iter().map(|(_, value)| value).sum::<u64>();
    ///     from = page.next;
    /// }
    /// assert_eq!(sum, 285);
    /// # Ok::<(), citrus_map::Error>(())
    /// ```
    pub fn page(&self, keys: impl RangeBounds<K>, room: usize) -> Result<Page<K>, Error> {
        match ends(&keys) {
            Some((low, high)) => self.list_from(low, high, room.clamp(1, MAX_ROOM)),
            None => Ok(Page { pairs: Vec::new(), next: None }),
        }
    }

    /// The last pairs with keys in the range, keys descending, as [`page`](KeyedHandle::page) has the first ones: `next` is the greatest key
    /// that isn't among them, with which the range of the next page ends.
    ///
    /// # Errors
    /// [`Error::NoMemory`].
    ///
    /// ```
    /// let index = citrus_map::Index::new(100, 1)?;
    /// let handle = index.handle()?;
    /// for key in 0..10 {
    ///     handle.insert(key, key * key)?;
    /// }
    /// let page = handle.page_down(.., 2)?;
    /// assert_eq!((page.pairs, page.next), (vec![(9, 81), (8, 64)], Some(7)));
    /// assert_eq!(handle.page_down(6..=7, 2)?.pairs, [(7, 49), (6, 36)]);
    /// # Ok::<(), citrus_map::Error>(())
    /// ```
    pub fn page_down(&self, keys: impl RangeBounds<K>, room: usize) -> Result<Page<K>, Error> {
        match ends(&keys) {
            Some((low, high)) => self.listed(citrus_list_down_once, low, high, room.clamp(1, MAX_ROOM)).map(page_of),
            None => Ok(Page { pairs: Vec::new(), next: None }),
        }
    }

    /// The pair with the least key at or above this one, as it was at one moment of the call.
    ///
    /// # Errors
    /// [`Error::Lost`] alone.
    ///
    /// ```
    /// let index = citrus_map::Index::new(100, 1)?;
    /// let handle = index.handle()?;
    /// handle.insert(5, 50)?;
    /// assert_eq!(handle.first_from(4)?, Some((5, 50)));
    /// assert_eq!(handle.first_from(6)?, None);
    /// # Ok::<(), citrus_map::Error>(())
    /// ```
    pub fn first_from(&self, low: K) -> Result<Option<(K, u64)>, Error> {
        Ok(self.first_at(low.encode())?.map(decoded))
    }

    /// The same by words.
    fn first_at(&self, low: u64) -> Result<Option<RawPair>, Error> {
        let (mut key, mut value) = (0, 0);
        // SAFETY: as in `get`.
        match self.call_again(|raw| unsafe { citrus_first_once(raw, low, &mut key, &mut value) }) {
            status::DONE => Ok(Some(RawPair { key, value })),
            status::UNCHANGED => Ok(None),
            status => Err(self.error(status)),
        }
    }

    /// The pair with the greatest key at or below this one, as it was at one moment of the call.
    ///
    /// # Errors
    /// [`Error::Lost`] alone.
    ///
    /// ```
    /// let index = citrus_map::Index::new(100, 1)?;
    /// let handle = index.handle()?;
    /// handle.insert(5, 50)?;
    /// assert_eq!(handle.last_to(6)?, Some((5, 50)));
    /// assert_eq!(handle.last_to(4)?, None);
    /// # Ok::<(), citrus_map::Error>(())
    /// ```
    pub fn last_to(&self, high: K) -> Result<Option<(K, u64)>, Error> {
        Ok(self.last_at(high.encode())?.map(decoded))
    }

    /// The same by words.
    fn last_at(&self, high: u64) -> Result<Option<RawPair>, Error> {
        let (mut key, mut value) = (0, 0);
        // SAFETY: as in `get`.
        match self.call_again(|raw| unsafe { citrus_last_once(raw, 0, high, &mut key, &mut value) }) {
            status::DONE => Ok(Some(RawPair { key, value })),
            status::UNCHANGED => Ok(None),
            status => Err(self.error(status)),
        }
    }

    /// The pair with the least key of all, as [`first_from`](KeyedHandle::first_from).
    ///
    /// # Errors
    /// [`Error::Lost`] alone.
    pub fn first(&self) -> Result<Option<(K, u64)>, Error> {
        Ok(self.first_at(0)?.map(decoded))
    }

    /// The pair with the greatest key of all, as [`last_to`](KeyedHandle::last_to).
    ///
    /// # Errors
    /// [`Error::Lost`] alone.
    pub fn last(&self) -> Result<Option<(K, u64)>, Error> {
        Ok(self.last_at(u64::MAX)?.map(decoded))
    }

    /// Takes out the pair with the least key, if there is one, with the value that it has by then. It was the least one at a moment of the
    /// call; another thread may have put in a lesser one before it was taken out.
    ///
    /// # Errors
    /// As [`remove`](KeyedHandle::remove).
    ///
    /// ```
    /// let index = citrus_map::Index::new(100, 1)?;
    /// let handle = index.handle()?;
    /// for key in [3, 1, 2] {
    ///     handle.insert(key, 10 * key)?;
    /// }
    /// assert_eq!(handle.pop_first()?, Some((1, 10)));
    /// assert_eq!(handle.pop_last()?, Some((3, 30)));
    /// # Ok::<(), citrus_map::Error>(())
    /// ```
    pub fn pop_first(&self) -> Result<Option<(K, u64)>, Error> {
        self.pop(|| self.first_at(0))
    }

    /// Takes out the pair with the least key at or above this one, as [`pop_first`](KeyedHandle::pop_first).
    ///
    /// # Errors
    /// As [`remove`](KeyedHandle::remove).
    pub fn pop_first_from(&self, low: K) -> Result<Option<(K, u64)>, Error> {
        let low = low.encode();
        self.pop(|| self.first_at(low))
    }

    /// Takes out the pair with the greatest key, as [`pop_first`](KeyedHandle::pop_first) that with the least.
    ///
    /// # Errors
    /// As [`remove`](KeyedHandle::remove).
    pub fn pop_last(&self) -> Result<Option<(K, u64)>, Error> {
        self.pop(|| self.last_at(u64::MAX))
    }

    /// Takes out the pair with the greatest key at or below this one, as [`pop_first`](KeyedHandle::pop_first).
    ///
    /// # Errors
    /// As [`remove`](KeyedHandle::remove).
    pub fn pop_last_to(&self, high: K) -> Result<Option<(K, u64)>, Error> {
        let high = high.encode();
        self.pop(|| self.last_at(high))
    }

    /// Another thread may take the pair that was found first.
    fn pop(&self, find: impl Fn() -> Result<Option<RawPair>, Error>) -> Result<Option<(K, u64)>, Error> {
        while let Some(RawPair { key, .. }) = find()? {
            if let Some(value) = self.remove_word(key)? {
                return Ok(Some(decoded(RawPair { key, value })));
            }
        }
        Ok(None)
    }

    /// Whether there is no pair, at a moment of the call.
    ///
    /// # Errors
    /// [`Error::Lost`] alone.
    pub fn is_empty(&self) -> Result<bool, Error> {
        Ok(self.first()?.is_none())
    }

    /// How many pairs there are. They are counted page by page, as [`range`](KeyedHandle::range) goes: with at most 1,000 pairs it is their
    /// number at one moment, and with more beside updates the number may be that of no moment.
    ///
    /// # Errors
    /// [`Error::NoMemory`].
    pub fn len(&self) -> Result<usize, Error> {
        self.len_in(..)
    }

    /// How many pairs have keys in the range, counted as by [`len`](KeyedHandle::len).
    ///
    /// # Errors
    /// [`Error::NoMemory`].
    ///
    /// ```
    /// let index = citrus_map::Index::new(100, 1)?;
    /// let handle = index.handle()?;
    /// for key in 0..10 {
    ///     handle.insert(key, key * key)?;
    /// }
    /// assert_eq!((handle.len()?, handle.len_in(3..7)?), (10, 4));
    /// # Ok::<(), citrus_map::Error>(())
    /// ```
    pub fn len_in(&self, keys: impl RangeBounds<K>) -> Result<usize, Error> {
        self.range(keys).try_fold(0, |count, pair| pair.map(|_| count + 1))
    }

    /// Takes out each pair with a key in the range that `stays(key, value)` says no to, and tells how many. It goes page by page, as
    /// [`range`](KeyedHandle::range), and each pair is taken out by an update of its own. The value is that of the page: where another thread
    /// gives the key another one after that, `stays` is asked once more, with that.
    ///
    /// # Errors
    /// As [`remove`](KeyedHandle::remove), and [`Error::NoMemory`]. The pairs before stay out.
    ///
    /// ```
    /// let index = citrus_map::Index::new(100, 1)?;
    /// let handle = index.handle()?;
    /// for key in 0..10 {
    ///     handle.insert(key, key * key)?;
    /// }
    /// assert_eq!(handle.retain(5.., |_, value| value % 2 == 0)?, 3);
    /// assert_eq!(handle.list(4..)?, [(4, 16), (6, 36), (8, 64)]);
    /// # Ok::<(), citrus_map::Error>(())
    /// ```
    pub fn retain(&self, keys: impl RangeBounds<K>, mut stays: impl FnMut(K, u64) -> bool) -> Result<usize, Error> {
        let (mut gone, mut from) = (0, ends(&keys));
        while let Some((low, high)) = from {
            let page = self.list_words(low, high, PAGE_ROOM)?;
            for RawPair { key, value } in page.pairs {
                gone += usize::from(self.take_while(key, value, |value| !stays(K::decode(key), value))?.is_some());
            }
            from = page.next.map(|next| (next, high));
        }
        Ok(gone)
    }

    /// Takes out all pairs, and tells how many: page by page, as [`range`](KeyedHandle::range), each by an update of its own. What other threads
    /// put in behind the page stays.
    ///
    /// # Errors
    /// As [`retain`](KeyedHandle::retain).
    pub fn clear(&self) -> Result<usize, Error> {
        self.retain(.., |_, _| false)
    }

    /// The keys are from `low` to `high`, both among them, and `room` is from 1 to `MAX_ROOM`.
    fn list_from(&self, low: u64, high: u64, room: usize) -> Result<Page<K>, Error> {
        self.list_words(low, high, room).map(page_of)
    }

    /// The same by words.
    fn list_words(&self, low: u64, high: u64, room: usize) -> Result<RawPage, Error> {
        self.listed(citrus_list_once, low, high, room)
    }

    /// What this list of the library tells.
    pub(crate) fn listed(&self, list: RawList, low: u64, high: u64, room: usize) -> Result<RawPage, Error> {
        let mut pairs: Vec<RawPair> = Vec::new();
        pairs.try_reserve_exact(room).map_err(|_| Error::NoMemory)?;
        let (mut count, mut next) = (0, 0);
        // SAFETY: as in `get`; there is room for so many pairs at `pairs`, and a `RawPair` is laid out as in C.
        let status = self.call_again(|raw| unsafe { list(raw, low, high, pairs.as_mut_ptr(), room, &mut count, &mut next) });
        let next = match status {
            status::DONE => None,
            status::MORE => Some(next),
            status => return Err(self.error(status)),
        };
        // SAFETY: the library has written the first `count` pairs, and there are no more of them than there is room for.
        unsafe { pairs.set_len(count) };
        pairs.shrink_to_fit();
        Ok(RawPage { pairs, next })
    }
}
