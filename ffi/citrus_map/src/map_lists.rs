//! Calls of a [`KeyedMapHandle`] for ranges of keys, and for the first and the last one.

use crate::handle::{ends, Handle};
use crate::ranges::PAGE_ROOM;
use crate::{Error, Key, KeyedMapHandle};
use std::ops::RangeBounds;

/// Keys in order. Lists and single keys are told as those of a [`Handle`](crate::Handle), and cost others the same.
impl<K: Key, V: Send + Sync> KeyedMapHandle<K, V> {
    /// Whether the key is present.
    ///
    /// # Errors
    /// As [`get`](KeyedMapHandle::get).
    pub fn contains_key(&self, key: K) -> Result<bool, Error> {
        self.handle.contains_key(key.encode())
    }

    /// All keys in the range as they were at one moment of the call, ascending: as [`Handle::list`](crate::Handle::list).
    ///
    /// # Errors
    /// [`Error::TooLong`], [`Error::NoMemory`].
    pub fn keys(&self, keys: impl RangeBounds<K>) -> Result<Vec<K>, Error> {
        match ends(&keys) {
            Some((low, high)) => Ok(self.handle.list(low..=high)?.into_iter().map(|(word, _)| K::decode(word)).collect()),
            None => Ok(Vec::new()),
        }
    }

    /// The least key of all.
    ///
    /// # Errors
    /// [`Error::Lost`] alone.
    pub fn first_key(&self) -> Result<Option<K>, Error> {
        Ok(self.handle.first()?.map(|(word, _)| K::decode(word)))
    }

    /// The greatest key of all.
    ///
    /// # Errors
    /// [`Error::Lost`] alone.
    pub fn last_key(&self) -> Result<Option<K>, Error> {
        Ok(self.handle.last()?.map(|(word, _)| K::decode(word)))
    }

    /// The least key at or above this one.
    ///
    /// # Errors
    /// [`Error::Lost`] alone.
    pub fn first_key_from(&self, low: K) -> Result<Option<K>, Error> {
        Ok(self.handle.first_from(low.encode())?.map(|(word, _)| K::decode(word)))
    }

    /// The greatest key at or below this one.
    ///
    /// # Errors
    /// [`Error::Lost`] alone.
    pub fn last_key_to(&self, high: K) -> Result<Option<K>, Error> {
        Ok(self.handle.last_to(high.encode())?.map(|(word, _)| K::decode(word)))
    }

    /// Takes out the pair with the least key, if there is one, and gives its value once nobody reads it: the key was the least one at a
    /// moment of the call.
    ///
    /// # Errors
    /// As [`remove`](KeyedMapHandle::remove).
    ///
    /// ```
    /// let map = citrus_map::Map::new(100, 1)?;
    /// let mut handle = map.handle()?;
    /// for key in [3, 1, 2] {
    ///     handle.insert(key, key.to_string())?;
    /// }
    /// assert_eq!(handle.pop_first()?, Some((1, "1".to_string())));
    /// assert_eq!(handle.pop_last()?, Some((3, "3".to_string())));
    /// # Ok::<(), citrus_map::Error>(())
    /// ```
    pub fn pop_first(&mut self) -> Result<Option<(K, V)>, Error> {
        self.pop(Handle::first)
    }

    /// Takes out the pair with the least key at or above this one, as [`pop_first`](KeyedMapHandle::pop_first).
    ///
    /// # Errors
    /// As [`remove`](KeyedMapHandle::remove).
    pub fn pop_first_from(&mut self, low: K) -> Result<Option<(K, V)>, Error> {
        let low = low.encode();
        self.pop(|handle| handle.first_from(low))
    }

    /// Takes out the pair with the greatest key, as [`pop_first`](KeyedMapHandle::pop_first) that with the least.
    ///
    /// # Errors
    /// As [`remove`](KeyedMapHandle::remove).
    pub fn pop_last(&mut self) -> Result<Option<(K, V)>, Error> {
        self.pop(Handle::last)
    }

    /// Takes out the pair with the greatest key at or below this one, as [`pop_first`](KeyedMapHandle::pop_first).
    ///
    /// # Errors
    /// As [`remove`](KeyedMapHandle::remove).
    pub fn pop_last_to(&mut self, high: K) -> Result<Option<(K, V)>, Error> {
        let high = high.encode();
        self.pop(|handle| handle.last_to(high))
    }

    /// Another thread may take the pair that was found first.
    fn pop(&mut self, find: impl Fn(&Handle) -> Result<Option<(u64, u64)>, Error>) -> Result<Option<(K, V)>, Error> {
        while let Some((word, _)) = find(&self.handle)? {
            if let Some(value) = self.remove_word(word)? {
                return Ok(Some((K::decode(word), value)));
            }
        }
        Ok(None)
    }

    /// Whether there is no pair, at a moment of the call.
    ///
    /// # Errors
    /// [`Error::Lost`] alone.
    pub fn is_empty(&self) -> Result<bool, Error> {
        self.handle.is_empty()
    }

    /// How many pairs there are, counted page by page: as [`Handle::len`](crate::Handle::len).
    ///
    /// # Errors
    /// [`Error::NoMemory`].
    pub fn len(&self) -> Result<usize, Error> {
        self.handle.len()
    }

    /// How many pairs have keys in the range, counted as by [`len`](KeyedMapHandle::len).
    ///
    /// # Errors
    /// [`Error::NoMemory`].
    pub fn len_in(&self, keys: impl RangeBounds<K>) -> Result<usize, Error> {
        match ends(&keys) {
            Some((low, high)) => self.handle.len_in(low..=high),
            None => Ok(0),
        }
    }

    /// [Retires](KeyedMapHandle::retire) each pair with a key in the range that `stays(key, value)` says no to, and tells how many. It goes page
    /// by page, as [`Handle::range`](crate::Handle::range). Where another thread gives the key another value after that was asked, it is asked
    /// once more, with that.
    ///
    /// `stays` reads the value as a [`Guard`](crate::Guard) does, so it is to be short and makes no update of the map.
    ///
    /// # Errors
    /// As [`remove`](KeyedMapHandle::remove), and [`Error::NoMemory`]. The pairs before stay out.
    ///
    /// ```
    /// let map = citrus_map::Map::new(100, 1)?;
    /// let mut handle = map.handle()?;
    /// for key in 0..10 {
    ///     handle.insert(key, vec![key; key as usize])?;
    /// }
    /// assert_eq!(handle.retain(.., |_, value| value.len() > 6)?, 7);
    /// assert_eq!(handle.keys(..)?, [7, 8, 9]);
    /// # Ok::<(), citrus_map::Error>(())
    /// ```
    pub fn retain(&mut self, keys: impl RangeBounds<K>, mut stays: impl FnMut(K, &V) -> bool) -> Result<usize, Error> {
        self.retire_each(keys, |handle, word| handle.retire_word_if(word, |value| !stays(K::decode(word), value)))
    }

    /// Retires all pairs, page by page, and tells how many: as [`retain`](KeyedMapHandle::retain). What other threads put in behind the page
    /// stays.
    ///
    /// # Errors
    /// As [`retain`](KeyedMapHandle::retain).
    pub fn clear(&mut self) -> Result<usize, Error> {
        self.retire_each(.., Self::retire_word)
    }

    /// Retires pairs of these keys, one by one, page by page.
    fn retire_each(
        &mut self,
        keys: impl RangeBounds<K>,
        mut retire: impl FnMut(&mut Self, u64) -> Result<bool, Error>,
    ) -> Result<usize, Error> {
        let (mut gone, mut from) = (0, ends(&keys));
        while let Some((low, high)) = from {
            let page = self.handle.page(low..=high, PAGE_ROOM)?;
            for (key, _) in page.pairs {
                gone += usize::from(retire(self, key)?);
            }
            from = page.next.map(|next| (next, high));
        }
        Ok(gone)
    }
}
