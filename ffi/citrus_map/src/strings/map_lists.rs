//! Calls of a [`StringMapHandle`] for ranges of strings, and for the first and the last one.

use super::keys::SCANS;
use super::map::StringMapHandle;
use super::range::StringRange;
use super::scan::{Visit, PAGE_ROOM};
use crate::Error;

/// Strings in order. They go page by page: strings ascend, or descend, and none comes twice. What stands in one layer is listed as it was at one
/// moment, as far as a list has room, and each list is later than the one before. So a string that is there all the time is visited, one that isn't
/// there at any time isn't, and the whole is of no one moment.
///
/// While a page of 128 strings is visited, calls of others that wait for readers wait for that. What is called reads values as a
/// [`StringGuard`](crate::StringGuard) does, so it is to be short and makes no update of the map.
impl<V: Send + Sync> StringMapHandle<V> {
    /// Calls `visit(string, value)` for each pair of the range, in order, and tells how many there were.
    ///
    /// # Errors
    /// [`Error::NoMemory`].
    ///
    /// ```
    /// use citrus_map::{Prefix, StringMap};
    ///
    /// let map = StringMap::new(100, 1)?;
    /// let mut handle = map.handle()?;
    /// for (user, age) in [("user:7", 70), ("user:8", 10), ("users", 2)] {
    ///     handle.insert(user, age)?;
    /// }
    /// let mut sum = 0;
    /// assert_eq!(handle.for_each(Prefix("user:"), |_, age| sum += age)?, 2);
    /// assert_eq!(sum, 80);
    /// assert_eq!(handle.for_each("user:8".., |user, _| assert!(user >= b"user:8"))?, 2);
    /// # Ok::<(), citrus_map::Error>(())
    /// ```
    pub fn for_each(&mut self, keys: impl StringRange, visit: impl FnMut(&[u8], &V)) -> Result<usize, Error> {
        self.for_first(keys, usize::MAX, visit)
    }

    /// The same of the first ones of the range, so many at most.
    ///
    /// # Errors
    /// As [`for_each`](StringMapHandle::for_each).
    pub fn for_first(&mut self, keys: impl StringRange, most: usize, visit: impl FnMut(&[u8], &V)) -> Result<usize, Error> {
        self.visit(&keys, false, most, visit)
    }

    /// The same of the last ones of the range, so many at most, the last one first.
    ///
    /// # Errors
    /// As [`for_each`](StringMapHandle::for_each).
    ///
    /// ```
    /// let map = citrus_map::StringMap::new(100, 1)?;
    /// let mut handle = map.handle()?;
    /// for text in ["a", "b", "c"] {
    ///     handle.insert(text, ())?;
    /// }
    /// let mut last: Vec<u8> = Vec::new();
    /// handle.for_last(.., 2, |text, _| last.extend(text))?;
    /// assert_eq!(last, b"cb");
    /// # Ok::<(), citrus_map::Error>(())
    /// ```
    pub fn for_last(&mut self, keys: impl StringRange, most: usize, visit: impl FnMut(&[u8], &V)) -> Result<usize, Error> {
        self.visit(&keys, true, most, visit)
    }

    fn visit(&mut self, keys: &impl StringRange, is_down: bool, most: usize, mut act: impl FnMut(&[u8], &V)) -> Result<usize, Error> {
        let ((low, below), mut count) = (keys.ends(), 0);
        let mut visit = Visit { low, below, is_down, most };
        while visit.most > 0 {
            let within = self.domain.enter(SCANS)?;
            count += visit.page(&self.ways, &within, &mut act)?;
        }
        Ok(count)
    }

    /// The strings of the range, ascending.
    ///
    /// # Errors
    /// As [`for_each`](StringMapHandle::for_each).
    pub fn keys(&mut self, keys: impl StringRange) -> Result<Vec<Vec<u8>>, Error> {
        let mut told = Vec::new();
        self.for_each(keys, |text, _| told.push(text.to_vec()))?;
        Ok(told)
    }

    /// The least string of the range.
    ///
    /// # Errors
    /// As [`for_each`](StringMapHandle::for_each).
    pub fn first_key(&mut self, keys: impl StringRange) -> Result<Option<Vec<u8>>, Error> {
        self.end_key(&keys, false)
    }

    /// The greatest string of the range.
    ///
    /// # Errors
    /// As [`for_each`](StringMapHandle::for_each).
    ///
    /// ```
    /// use citrus_map::{Prefix, StringMap};
    ///
    /// let map = StringMap::new(100, 1)?;
    /// let mut handle = map.handle()?;
    /// for text in ["user:7", "user:8", "users"] {
    ///     handle.insert(text, ())?;
    /// }
    /// assert_eq!(handle.last_key(Prefix("user:"))?, Some(b"user:8".to_vec()));
    /// assert_eq!(handle.first_key("v"..)?, None);
    /// # Ok::<(), citrus_map::Error>(())
    /// ```
    pub fn last_key(&mut self, keys: impl StringRange) -> Result<Option<Vec<u8>>, Error> {
        self.end_key(&keys, true)
    }

    fn end_key(&mut self, keys: &impl StringRange, is_down: bool) -> Result<Option<Vec<u8>>, Error> {
        let mut told = None;
        self.visit(keys, is_down, 1, |text, _| told = Some(text.to_vec()))?;
        Ok(told)
    }

    /// Takes out the pair with the least string, if there is one, and gives its value once nobody reads it. It was the least one at a moment of the
    /// call; another thread may have put in a lesser one before it was taken out.
    ///
    /// # Errors
    /// As [`remove`](StringMapHandle::remove), and [`Error::NoMemory`].
    ///
    /// ```
    /// let map = citrus_map::StringMap::new(100, 1)?;
    /// let mut handle = map.handle()?;
    /// for text in ["c", "a", "b"] {
    ///     handle.insert(text, text.len())?;
    /// }
    /// assert_eq!(handle.pop_first()?, Some((b"a".to_vec(), 1)));
    /// assert_eq!(handle.pop_last()?, Some((b"c".to_vec(), 1)));
    /// # Ok::<(), citrus_map::Error>(())
    /// ```
    pub fn pop_first(&mut self) -> Result<Option<(Vec<u8>, V)>, Error> {
        self.pop(false)
    }

    /// Takes out the pair with the greatest string, as [`pop_first`](StringMapHandle::pop_first) that with the least.
    ///
    /// # Errors
    /// As [`pop_first`](StringMapHandle::pop_first).
    pub fn pop_last(&mut self) -> Result<Option<(Vec<u8>, V)>, Error> {
        self.pop(true)
    }

    /// Another thread may take the pair that was found first.
    fn pop(&mut self, is_down: bool) -> Result<Option<(Vec<u8>, V)>, Error> {
        while let Some(text) = self.end_key(&(..), is_down)? {
            if let Some(value) = self.remove(&text)? {
                return Ok(Some((text, value)));
            }
        }
        Ok(None)
    }

    /// Whether there is no string.
    ///
    /// # Errors
    /// As [`for_each`](StringMapHandle::for_each).
    pub fn is_empty(&mut self) -> Result<bool, Error> {
        Ok(self.first_key(..)?.is_none())
    }

    /// How many strings there are, by a visit to each.
    ///
    /// # Errors
    /// As [`for_each`](StringMapHandle::for_each).
    pub fn len(&mut self) -> Result<usize, Error> {
        self.for_each(.., |_, _| ())
    }

    /// Retires each pair of the range that `stays(string, value)` says no to, page by page, and tells how many. Each is taken out by an update of its
    /// own. Where another thread gives the string another value after that was asked, it is asked once more, with that.
    ///
    /// # Errors
    /// As [`remove`](StringMapHandle::remove), and [`Error::NoMemory`]. The pairs before stay out.
    ///
    /// ```
    /// let map = citrus_map::StringMap::new(100, 1)?;
    /// let mut handle = map.handle()?;
    /// for number in 0..10 {
    ///     handle.insert(number.to_string(), number)?;
    /// }
    /// assert_eq!(handle.retain("3".., |_, value| value % 2 == 0)?, 4);
    /// assert_eq!(handle.len()?, 6);
    /// # Ok::<(), citrus_map::Error>(())
    /// ```
    pub fn retain(&mut self, keys: impl StringRange, mut stays: impl FnMut(&[u8], &V) -> bool) -> Result<usize, Error> {
        let ((low, below), mut gone) = (keys.ends(), 0);
        let mut visit = Visit { low, below, is_down: false, most: usize::MAX };
        while visit.most > 0 {
            let mut page = Vec::with_capacity(PAGE_ROOM);
            let within = self.domain.enter(SCANS)?;
            visit.page(&self.ways, &within, |text, _| page.push(text.to_vec()))?;
            drop(within);
            for text in page {
                gone += usize::from(self.retire_if(&text, |value| !stays(&text, value))?);
            }
        }
        Ok(gone)
    }

    /// Retires all pairs, page by page, and tells how many: as [`retain`](StringMapHandle::retain). What other threads put in behind the page stays.
    ///
    /// # Errors
    /// As [`retain`](StringMapHandle::retain).
    pub fn clear(&mut self) -> Result<usize, Error> {
        self.retain(.., |_, _| false)
    }
}
