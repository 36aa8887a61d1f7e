use crate::handle::KeyedHandle;
use crate::library::*;
use crate::{Error, Key};
use std::fmt;
use std::marker::PhantomData;

/// A read section: a [`wait`](KeyedHandle::wait) for its key that begins from here on, or a [`begin`](KeyedHandle::begin), isn't over before this guard
/// is dropped. So it is for a moment, as the guard of a lock.
///
/// A guard that is forgotten, as by [`std::mem::forget`], leaves its section open until the next call of its handle, or until that is dropped.
///
/// It stays on its thread:
///
/// ```compile_fail,E0277
/// fn sent<T: Send>(_: T) {}
/// let index = citrus_map::Index::new(100, 1).unwrap();
/// let mut handle = index.handle().unwrap();
/// sent(handle.enter(5).unwrap());
/// ```
#[must_use = "the section is left where it is dropped"]
pub struct Section<'h, K = u64> {
    handle: &'h mut KeyedHandle<K>,
    key: K,
    stays_on_its_thread: PhantomData<*const ()>,
}

impl<K: Key> Section<'_, K> {
    /// The key with which it was entered.
    pub fn key(&self) -> K {
        self.key
    }
}

impl<K> Drop for Section<'_, K> {
    fn drop(&mut self) {
        self.handle.leave();
    }
}

impl<K: fmt::Debug> fmt::Debug for Section<'_, K> {
    fn fmt(&self, text: &mut fmt::Formatter<'_>) -> fmt::Result {
        text.debug_struct("Section").field("key", &self.key).finish_non_exhaustive()
    }
}

/// A [`Section`] with the value that its key had when it was looked up in it.
#[derive(Debug)]
#[must_use = "the section is left where it is dropped"]
pub struct Held<'h, K = u64> {
    section: Section<'h, K>,
    value: u64,
}

impl<K: Key> Held<'_, K> {
    /// The key.
    pub fn key(&self) -> K {
        self.section.key
    }

    /// The key's value at a moment of the [`hold`](KeyedHandle::hold). Others may have replaced it or taken it out since.
    pub fn value(&self) -> u64 {
        self.value
    }
}

/// Sections.
impl<K: Key> KeyedHandle<K> {
    /// Looks the key up, and stays in a section of the key where it is present, until the guard is dropped. It takes no lock and waits for
    /// nobody.
    ///
    /// So a value may stand for something of the caller's that is given up by who takes the pair out, after a [`wait`](KeyedHandle::wait) for the
    /// key: each section that found this value is left by then. [`Map`](crate::Map) is made so.
    ///
    /// # Errors
    /// [`Error::Lost`] alone.
    ///
    /// ```
    /// let index = citrus_map::Index::new(100, 1)?;
    /// let mut handle = index.handle()?;
    /// assert!(handle.hold(5)?.is_none());
    /// handle.insert(5, 50)?;
    /// if let Some(held) = handle.hold(5)? {
    ///     assert_eq!((held.key(), held.value()), (5, 50));
    /// }
    /// # Ok::<(), citrus_map::Error>(())
    /// ```
    ///
    /// While the guard is there the handle makes no other call:
    ///
    /// ```compile_fail,E0502
    /// let index = citrus_map::Index::new(100, 1).unwrap();
    /// let mut handle = index.handle().unwrap();
    /// let held = handle.hold(5).unwrap();
    /// handle.remove(5).unwrap();
    /// drop(held);
    /// ```
    pub fn hold(&mut self, key: K) -> Result<Option<Held<'_, K>>, Error> {
        match self.enter_at(key.encode())? {
            Some(value) => Ok(Some(Held { section: self.entered(key), value })),
            None => Ok(None),
        }
    }

    /// The same of the first of the keys that `next` tells that is present when it comes to it.
    pub(crate) fn hold_first_of(&mut self, mut next: impl FnMut(&Self) -> Result<Option<K>, Error>) -> Result<Option<Held<'_, K>>, Error> {
        while let Some(key) = next(self)? {
            if let Some(value) = self.enter_at(key.encode())? {
                return Ok(Some(Held { section: self.entered(key), value }));
            }
        }
        Ok(None)
    }

    /// Looks the key up in a section of it, which is open behind this where it is present.
    fn enter_at(&mut self, word: u64) -> Result<Option<u64>, Error> {
        let mut value = 0;
        // SAFETY: as in `get`.
        match self.call(|raw| unsafe { citrus_hold(raw, word, &mut value) }) {
            status::DONE => Ok(Some(value)),
            status::UNCHANGED => Ok(None),
            status => Err(self.error(status)),
        }
    }

    /// Enters a section of the key, which needs not be present, without a search.
    ///
    /// # Errors
    /// [`Error::Lost`] alone.
    ///
    /// ```
    /// let index = citrus_map::Index::new(100, 2)?;
    /// let (mut reader, waiter) = (index.handle()?, index.handle()?);
    /// let section = reader.enter(5)?;
    /// let cookie = waiter.begin(0..10)?;
    /// assert_eq!(waiter.poll(cookie)?, citrus_map::GracePeriod::UnderWay);
    /// drop(section);
    /// assert_eq!(waiter.poll(cookie)?, citrus_map::GracePeriod::Over);
    /// # Ok::<(), citrus_map::Error>(())
    /// ```
    pub fn enter(&mut self, key: K) -> Result<Section<'_, K>, Error> {
        let word = key.encode();
        // SAFETY: as in `get`.
        match self.call(|raw| unsafe { citrus_enter(raw, word) }) {
            status::DONE => Ok(self.entered(key)),
            status => Err(self.error(status)),
        }
    }

    /// The guard of the section that was just entered.
    fn entered(&mut self, key: K) -> Section<'_, K> {
        self.has_entered();
        Section { handle: self, key, stays_on_its_thread: PhantomData }
    }
}
