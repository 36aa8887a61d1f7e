use crate::library::{citrus_get_many, citrus_open_lanes, status, RawAnswer, RawHandle, RawLanes};
use crate::pool::Pool;
use crate::{Error, Key};
use std::fmt;
use std::marker::PhantomData;
use std::mem::replace;
use std::sync::Arc;

/// So many lookups [`Lanes`] make beside each other, and so many handles' places they take.
pub const LANES: u32 = 8;

/// Eight places of a [`KeyedIndex`](crate::KeyedIndex) by which one thread looks up many keys at once: while one lookup waits for a word of a large
/// index, the words of the others come too. They go back to the index when they are dropped.
///
/// ```
/// use citrus_map::Index;
///
/// let index = Index::builder(1_000, 1).lanes(1).build()?;
/// index.handle()?.insert(5, 50)?;
/// let mut lanes = index.lanes()?;
/// assert_eq!(lanes.get_many(&[5, 6])?, [Some(50), None]);
/// # Ok::<(), citrus_map::Error>(())
/// ```
#[repr(align(128))]
pub struct Lanes<K = u64> {
    raw: RawLanes,
    /// Whether they can do no more, so that they don't go back.
    used_up: bool,
    pool: Arc<Pool>,
    keys: PhantomData<fn(K) -> K>,
}

impl<K: Key> Lanes<K> {
    pub(crate) fn new(raw: RawLanes, pool: Arc<Pool>) -> Lanes<K> {
        Lanes { raw, used_up: false, pool, keys: PhantomData }
    }

    /// The value of each key, at its index, where it is present. Each was so at a moment of the call, and no two need be of one moment. It
    /// takes no lock and waits for nobody.
    ///
    /// # Errors
    /// [`Error::NoMemory`], and [`Error::Lost`], which takes more than a lifetime.
    pub fn get_many(&mut self, keys: &[K]) -> Result<Vec<Option<u64>>, Error> {
        let keys = K::encode_all(keys);
        let mut answers = vec![RawAnswer::default(); keys.len()];
        // SAFETY: the lanes are as the last call left them, and borrowed for this one alone. The keys and the answers are of their lengths.
        match unsafe { citrus_get_many(&mut self.raw, keys.as_ptr(), keys.len(), answers.as_mut_ptr(), answers.len()) } {
            status::DONE => Ok(answers.into_iter().map(RawAnswer::value).collect()),
            status::NO_MEMORY => Err(Error::NoMemory),
            status::LOST => {
                self.used_up = true;
                Err(Error::Lost)
            }
            status => panic!("the library citrus answered {status} to open lanes, which citrus.h excludes"),
        }
    }
}

impl<K> Drop for Lanes<K> {
    fn drop(&mut self) {
        let raw = replace(&mut self.raw, RawLanes::CLOSED);
        if !self.used_up {
            self.pool.put_lanes_back(raw);
        }
    }
}

impl<K> fmt::Debug for Lanes<K> {
    fn fmt(&self, text: &mut fmt::Formatter<'_>) -> fmt::Result {
        text.debug_struct("Lanes").finish_non_exhaustive()
    }
}

/// Opens so many sets of lanes, by handles that could be shared from the first one.
pub(crate) fn open_sets(first: &mut RawHandle, sets: u32) -> Result<Vec<RawLanes>, Error> {
    (0..sets)
        .map(|_| {
            let mut raw = RawLanes::CLOSED;
            // SAFETY: both are our own, the handle open as the last call left it and the lanes closed.
            match unsafe { citrus_open_lanes(first, &mut raw, LANES) } {
                status::DONE => Ok(raw),
                status::NO_MEMORY => Err(Error::NoMemory),
                status => panic!("the library citrus answered {status} to closed lanes, which citrus.h excludes"),
            }
        })
        .collect()
}
