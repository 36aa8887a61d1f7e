//! Calls of an index without a handle in hand: each by a handle that is taken for it.

use crate::{Error, Key, KeyedHandle, KeyedIndex};
use std::fmt;
use std::marker::PhantomData;
use std::mem::ManuallyDrop;
use std::ops::{Deref, RangeBounds};

/// A handle that a [`KeyedIndex`] lends for a call or a few: see [`KeyedIndex::lend`]. It goes back when this is dropped.
pub struct Lent<'i, K = u64> {
    /// Its reference to the pool isn't counted, and so never dropped: the index has one for as long as it is borrowed here.
    handle: ManuallyDrop<KeyedHandle<K>>,
    index: PhantomData<&'i KeyedIndex<K>>,
}

impl<K> Lent<'_, K> {
    /// # Safety
    /// The handle's reference to the pool isn't counted, and there is another one as long as this.
    pub(crate) unsafe fn new(handle: KeyedHandle<K>) -> Self {
        Lent { handle: ManuallyDrop::new(handle), index: PhantomData }
    }
}

// There is no `&mut KeyedHandle`, which could be exchanged with one that goes elsewhere.
impl<K> Deref for Lent<'_, K> {
    type Target = KeyedHandle<K>;

    fn deref(&self) -> &KeyedHandle<K> {
        &self.handle
    }
}

impl<K> Drop for Lent<'_, K> {
    fn drop(&mut self) {
        // SAFETY: this is the handle's end, which isn't dropped.
        unsafe { self.handle.give_back() };
    }
}

impl<K> fmt::Debug for Lent<'_, K> {
    fn fmt(&self, text: &mut fmt::Formatter<'_>) -> fmt::Result {
        text.debug_struct("Lent").finish_non_exhaustive()
    }
}

/// Calls without a handle in hand.
///
/// Each takes a handle for the call by [`lend`](KeyedIndex::lend), and answers as the call of [`KeyedHandle`] with its name, or
/// [`Error::NoHandle`] as `lend` does.
impl<K: Key> KeyedIndex<K> {
    /// Lends a handle for a call or a few. A thread is lent the one that it had last, where nobody has it: so with as many handles as threads
    /// each comes to have its own, and a call costs little more than by a handle that is kept. No thread keeps anything: threads may come and
    /// go, and an index is freed when it is dropped, whoever called.
    ///
    /// # Errors
    /// [`Error::NoHandle`] where all handles are out at this moment, in other threads' calls too.
    ///
    /// ```
    /// let index = citrus_map::Index::new(100, 4)?;
    /// index.insert(5, 50)?;
    /// assert_eq!(index.get(5)?, Some(50));
    /// assert_eq!(index.list(..)?, [(5, 50)]);
    /// # Ok::<(), citrus_map::Error>(())
    /// ```
    ///
    /// What is lent goes back before the index is dropped:
    ///
    /// ```compile_fail,E0505
    /// let index = citrus_map::Index::new(100, 1).unwrap();
    /// let lent = index.lend().unwrap();
    /// drop(index);
    /// lent.get(5).unwrap();
    /// ```
    ///
    /// For a section take a handle by [`handle`](KeyedIndex::handle):
    ///
    /// ```compile_fail,E0596
    /// let index = citrus_map::Index::new(100, 1).unwrap();
    /// index.lend().unwrap().hold(5).unwrap();
    /// ```
    #[inline]
    pub fn lend(&self) -> Result<Lent<'_, K>, Error> {
        self.taken_for_a_call().ok_or(Error::NoHandle)
    }

    /// As [`KeyedHandle::get`].
    ///
    /// # Errors
    /// As that, and [`Error::NoHandle`].
    pub fn get(&self, key: K) -> Result<Option<u64>, Error> {
        self.lend()?.get(key)
    }

    /// As [`KeyedHandle::contains_key`].
    ///
    /// # Errors
    /// As that, and [`Error::NoHandle`].
    pub fn contains_key(&self, key: K) -> Result<bool, Error> {
        self.lend()?.contains_key(key)
    }

    /// As [`KeyedHandle::insert`].
    ///
    /// # Errors
    /// As that, and [`Error::NoHandle`].
    pub fn insert(&self, key: K, value: u64) -> Result<bool, Error> {
        self.lend()?.insert(key, value)
    }

    /// As [`KeyedHandle::replace`].
    ///
    /// # Errors
    /// As that, and [`Error::NoHandle`].
    pub fn replace(&self, key: K, value: u64) -> Result<Option<u64>, Error> {
        self.lend()?.replace(key, value)
    }

    /// As [`KeyedHandle::upsert`].
    ///
    /// # Errors
    /// As that, and [`Error::NoHandle`].
    pub fn upsert(&self, key: K, value: u64) -> Result<Option<u64>, Error> {
        self.lend()?.upsert(key, value)
    }

    /// As [`KeyedHandle::compare_exchange`].
    ///
    /// # Errors
    /// As that, and [`Error::NoHandle`].
    pub fn compare_exchange(&self, key: K, current: u64, new: u64) -> Result<Result<u64, Option<u64>>, Error> {
        self.lend()?.compare_exchange(key, current, new)
    }

    /// As [`KeyedHandle::update`].
    ///
    /// # Errors
    /// As that, and [`Error::NoHandle`].
    pub fn update(&self, key: K, change: impl FnMut(u64) -> u64) -> Result<Option<u64>, Error> {
        self.lend()?.update(key, change)
    }

    /// As [`KeyedHandle::remove`].
    ///
    /// # Errors
    /// As that, and [`Error::NoHandle`].
    pub fn remove(&self, key: K) -> Result<Option<u64>, Error> {
        self.lend()?.remove(key)
    }

    /// As [`KeyedHandle::take`].
    ///
    /// # Errors
    /// As that, and [`Error::NoHandle`].
    pub fn take(&self, key: K, current: u64) -> Result<Result<u64, Option<u64>>, Error> {
        self.lend()?.take(key, current)
    }

    /// As [`KeyedHandle::remove_if`].
    ///
    /// # Errors
    /// As that, and [`Error::NoHandle`].
    pub fn remove_if(&self, key: K, goes: impl FnMut(u64) -> bool) -> Result<Option<u64>, Error> {
        self.lend()?.remove_if(key, goes)
    }

    /// As [`KeyedHandle::list`].
    ///
    /// # Errors
    /// As that, and [`Error::NoHandle`].
    pub fn list(&self, keys: impl RangeBounds<K>) -> Result<Vec<(K, u64)>, Error> {
        self.lend()?.list(keys)
    }

    /// As [`KeyedHandle::first`].
    ///
    /// # Errors
    /// As that, and [`Error::NoHandle`].
    pub fn first(&self) -> Result<Option<(K, u64)>, Error> {
        self.lend()?.first()
    }

    /// As [`KeyedHandle::first_from`].
    ///
    /// # Errors
    /// As that, and [`Error::NoHandle`].
    pub fn first_from(&self, low: K) -> Result<Option<(K, u64)>, Error> {
        self.lend()?.first_from(low)
    }

    /// As [`KeyedHandle::last`].
    ///
    /// # Errors
    /// As that, and [`Error::NoHandle`].
    pub fn last(&self) -> Result<Option<(K, u64)>, Error> {
        self.lend()?.last()
    }

    /// As [`KeyedHandle::last_to`].
    ///
    /// # Errors
    /// As that, and [`Error::NoHandle`].
    pub fn last_to(&self, high: K) -> Result<Option<(K, u64)>, Error> {
        self.lend()?.last_to(high)
    }

    /// As [`KeyedHandle::pop_first`].
    ///
    /// # Errors
    /// As that, and [`Error::NoHandle`].
    pub fn pop_first(&self) -> Result<Option<(K, u64)>, Error> {
        self.lend()?.pop_first()
    }

    /// As [`KeyedHandle::pop_first_from`].
    ///
    /// # Errors
    /// As that, and [`Error::NoHandle`].
    pub fn pop_first_from(&self, low: K) -> Result<Option<(K, u64)>, Error> {
        self.lend()?.pop_first_from(low)
    }

    /// As [`KeyedHandle::pop_last`].
    ///
    /// # Errors
    /// As that, and [`Error::NoHandle`].
    pub fn pop_last(&self) -> Result<Option<(K, u64)>, Error> {
        self.lend()?.pop_last()
    }

    /// As [`KeyedHandle::pop_last_to`].
    ///
    /// # Errors
    /// As that, and [`Error::NoHandle`].
    pub fn pop_last_to(&self, high: K) -> Result<Option<(K, u64)>, Error> {
        self.lend()?.pop_last_to(high)
    }

    /// As [`KeyedHandle::is_empty`].
    ///
    /// # Errors
    /// As that, and [`Error::NoHandle`].
    pub fn is_empty(&self) -> Result<bool, Error> {
        self.lend()?.is_empty()
    }

    /// As [`KeyedHandle::len`].
    ///
    /// # Errors
    /// As that, and [`Error::NoHandle`].
    pub fn len(&self) -> Result<usize, Error> {
        self.lend()?.len()
    }

    /// As [`KeyedHandle::len_in`].
    ///
    /// # Errors
    /// As that, and [`Error::NoHandle`].
    pub fn len_in(&self, keys: impl RangeBounds<K>) -> Result<usize, Error> {
        self.lend()?.len_in(keys)
    }
}
