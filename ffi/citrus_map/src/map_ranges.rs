//! Ranges of a map's pairs, whose values are read one at a time.

use crate::handle::ends;
use crate::library::*;
use crate::ranges::{Pages, PAGE_ROOM};
use crate::{Error, Guard, Key, KeyedMapHandle};
use std::fmt;
use std::ops::RangeBounds;

/// The pairs of a key range with their values: see [`KeyedMapHandle::range`].
///
/// It is no [`Iterator`], since each guard borrows it, and while one is there it doesn't go on:
///
/// ```compile_fail,E0499
/// let map = citrus_map::Map::<u64>::new(100, 1).unwrap();
/// let mut handle = map.handle().unwrap();
/// let mut pairs = handle.range(..);
/// let first = pairs.next().unwrap();
/// pairs.next().unwrap();
/// drop(first);
/// ```
#[must_use = "it lists nothing before it is asked for a pair"]
pub struct MapRange<'h, K, V> {
    handle: &'h mut KeyedMapHandle<K, V>,
    pages: Pages,
}

impl<K: Key, V: Send + Sync> MapRange<'_, K, V> {
    /// The next value from below, whose key [`Guard::key`] tells. Behind an error nothing is left.
    ///
    /// # Errors
    /// [`Error::NoMemory`].
    // An iterator's `next` can't lend what the iterator has.
    #[allow(clippy::should_implement_trait)]
    pub fn next(&mut self) -> Result<Option<Guard<'_, V, K>>, Error> {
        let pages = &mut self.pages;
        self.handle.get_first_of(|handle| {
            let pair = pages.next(|low, high| handle.listed(citrus_list_once, low, high, PAGE_ROOM)).transpose()?;
            Ok(pair.map(|pair| pair.key))
        })
    }

    /// The next value from above.
    ///
    /// # Errors
    /// [`Error::NoMemory`].
    pub fn next_back(&mut self) -> Result<Option<Guard<'_, V, K>>, Error> {
        let pages = &mut self.pages;
        self.handle.get_first_of(|handle| {
            let pair = pages.next_back(|low, high| handle.listed(citrus_list_down_once, low, high, PAGE_ROOM)).transpose()?;
            Ok(pair.map(|pair| pair.key))
        })
    }
}

impl<K, V> fmt::Debug for MapRange<'_, K, V> {
    fn fmt(&self, text: &mut fmt::Formatter<'_>) -> fmt::Result {
        text.debug_struct("MapRange").finish_non_exhaustive()
    }
}

/// Pairs with their values, in order of keys.
impl<K: Key, V: Send + Sync> KeyedMapHandle<K, V> {
    /// The pairs with keys in the range, one by one, from both ends: keys ascend by [`next`](MapRange::next), and descend by
    /// [`next_back`](MapRange::next_back), until the two meet. Keys are listed as by [`Handle::range`](crate::Handle::range), and the value of
    /// each is looked up when it comes to it: so it is one that the key had since its page was listed, and a pair that is gone by then is left
    /// out. No key comes twice or out of order, and what is there all the time comes.
    ///
    /// ```
    /// use citrus_map::{Guard, Map};
    ///
    /// let map = Map::new(100, 1)?;
    /// let mut handle = map.handle()?;
    /// for key in 0..10 {
    ///     handle.insert(key, key.to_string())?;
    /// }
    /// let mut pairs = handle.range(..5);
    /// assert_eq!(pairs.next_back()?.as_deref(), Some(&"4".to_string()));
    /// while let Some(text) = pairs.next()? {
    ///     assert_eq!(*text, Guard::key(&text).to_string());
    /// }
    /// # Ok::<(), citrus_map::Error>(())
    /// ```
    pub fn range(&mut self, keys: impl RangeBounds<K>) -> MapRange<'_, K, V> {
        MapRange { pages: Pages::new(ends(&keys)), handle: self }
    }

    /// Calls `visit(key, value)` for each pair of the range, keys ascending, as [`range`](KeyedMapHandle::range) comes to them. It reads the value
    /// as a [`Guard`] does, so it is to be short and makes no update of the map.
    ///
    /// # Errors
    /// [`Error::NoMemory`], behind the pairs that were visited.
    ///
    /// ```
    /// let map = citrus_map::Map::new(100, 1)?;
    /// let mut handle = map.handle()?;
    /// handle.insert(5, "five")?;
    /// handle.insert(6, "six")?;
    /// let mut letters = 0;
    /// handle.for_each(6.., |_, text| letters += text.len())?;
    /// assert_eq!(letters, 3);
    /// # Ok::<(), citrus_map::Error>(())
    /// ```
    pub fn for_each(&mut self, keys: impl RangeBounds<K>, mut visit: impl FnMut(K, &V)) -> Result<(), Error> {
        let mut pairs = self.range(keys);
        while let Some(value) = pairs.next()? {
            visit(Guard::key(&value), &value);
        }
        Ok(())
    }

    /// The pair with the least key, if there is one. The key was the least one at a moment of the call, and the value is one that it had since.
    ///
    /// # Errors
    /// [`Error::Lost`] alone.
    ///
    /// ```
    /// use citrus_map::{Guard, Map};
    ///
    /// let map = Map::new(100, 1)?;
    /// let mut handle = map.handle()?;
    /// handle.insert(5, "five")?;
    /// assert_eq!(handle.first()?.map(|text| Guard::key(&text)), Some(5));
    /// assert_eq!(handle.last_to(6)?.as_deref(), Some(&"five"));
    /// assert!(handle.first_from(6)?.is_none());
    /// # Ok::<(), citrus_map::Error>(())
    /// ```
    pub fn first(&mut self) -> Result<Option<Guard<'_, V, K>>, Error> {
        self.get_first_of(|handle| Ok(handle.first()?.map(|(word, _)| word)))
    }

    /// The pair with the least key at or above this one, as [`first`](KeyedMapHandle::first).
    ///
    /// # Errors
    /// [`Error::Lost`] alone.
    pub fn first_from(&mut self, low: K) -> Result<Option<Guard<'_, V, K>>, Error> {
        let low = low.encode();
        self.get_first_of(|handle| Ok(handle.first_from(low)?.map(|(word, _)| word)))
    }

    /// The pair with the greatest key, as [`first`](KeyedMapHandle::first) that with the least.
    ///
    /// # Errors
    /// [`Error::Lost`] alone.
    pub fn last(&mut self) -> Result<Option<Guard<'_, V, K>>, Error> {
        self.get_first_of(|handle| Ok(handle.last()?.map(|(word, _)| word)))
    }

    /// The pair with the greatest key at or below this one.
    ///
    /// # Errors
    /// [`Error::Lost`] alone.
    pub fn last_to(&mut self, high: K) -> Result<Option<Guard<'_, V, K>>, Error> {
        let high = high.encode();
        self.get_first_of(|handle| Ok(handle.last_to(high)?.map(|(word, _)| word)))
    }
}
