use crate::handle::KeyedHandle;
use crate::key::Words;
use crate::lanes::{open_sets, Lanes, LANES};
use crate::lent::Lent;
use crate::library::{citrus_open_keeping, citrus_open_with, citrus_share, status, RawHandle, RawOptions};
use crate::pool::Pool;
use crate::turns::Turns;
use crate::{Error, Key, ALL_TICKETS, MAX_HANDLES, MAX_PAIRS};
use std::collections::hash_map::RandomState;
use std::fmt;
use std::hash::{BuildHasher, Hasher};
use std::marker::PhantomData;
use std::ptr;
use std::sync::Arc;

/// How a removal waits until nobody reads what it took out. Lookups differ little; see [`Builder::waiter`].
#[derive(Clone, Copy, Debug, Default, PartialEq, Eq, Hash)]
pub enum Waiter {
    /// Looks at the key of each reader. The most exact one; take it first.
    #[default]
    Eer,
    /// Counts readers in 64 classes of keys. What a wait costs doesn't grow with the number of handles.
    Domain,
    /// Has a stamp for each handle and class. Readers write to words of their own alone.
    Deer,
}

impl Waiter {
    /// The number that `citrus.h` has for it.
    fn number(self) -> u32 {
        match self {
            Waiter::Eer => 0,
            Waiter::Domain => 1,
            Waiter::Deer => 2,
        }
    }
}

/// How an [`Index`] is made, where [`Index::new`] doesn't say enough.
///
/// ```
/// use citrus_map::{Index, Waiter};
///
/// let index = Index::builder(1_000, 4).waiter(Waiter::Deer).build()?;
/// assert_eq!(index.handle()?.insert(5, 50), Ok(true));
/// # Ok::<(), citrus_map::Error>(())
/// ```
#[derive(Clone, Copy, Debug)]
#[must_use]
pub struct Builder {
    pairs: u32,
    handles: u32,
    waiter: Waiter,
    in_turn: bool,
    lane_sets: u32,
    salt: Option<u64>,
    keep: Option<u32>,
}

impl Builder {
    /// So many sets of eight lanes, for [`Index::lanes`]; none where nothing is said. Each takes the places of eight handles, and
    /// [`MAX_HANDLES`] is the most of both together.
    pub fn lanes(self, sets: u32) -> Builder {
        Builder { lane_sets: sets, ..self }
    }

    /// The way in which removals wait; [`Waiter::Eer`] where nothing is said. All three answer the same.
    pub fn waiter(self, waiter: Waiter) -> Builder {
        Builder { waiter, ..self }
    }

    /// The salt by which the tree turns its nodes; it is drawn where nothing is said. A fixed one is for tests, whose tree is to be the same
    /// each time: who knows it can choose keys by which each call is as slow as there are pairs.
    ///
    /// ```
    /// let index = citrus_map::Index::builder(1_000, 1).salt(5).build()?;
    /// assert_eq!(index.handle()?.insert(5, 50), Ok(true));
    /// # Ok::<(), citrus_map::Error>(())
    /// ```
    pub fn salt(self, salt: u64) -> Builder {
        Builder { salt: Some(salt), ..self }
    }

    /// How many slots of removed pairs each handle may keep back, until no reader can stand there: 16 or more. Where nothing is said, or 0, it is an
    /// eighth of the pairs that there are for each handle, but 64 at least and 65,536 at most, and no more than 2^30 slots allow.
    ///
    /// While a reader stays each removal keeps back one or more; a handle that keeps back so many removes nothing until the reader leaves, and adds
    /// few pairs of keys that come in order, since it turns no nodes. So with more of them updates go on for longer beside a
    /// [`Guard`](crate::Guard) that stays, or a thread that the system has stopped in a lookup.
    /// Each slot takes 72 bytes, for each handle and each lane, and 8 more once it is used.
    ///
    /// ```
    /// let index = citrus_map::Index::builder(1_000, 2).keep(4_096).build()?;
    /// assert_eq!(index.handle()?.stats().room, 4_096);
    /// # Ok::<(), citrus_map::Error>(())
    /// ```
    pub fn keep(self, slots: u32) -> Builder {
        Builder { keep: Some(slots), ..self }
    }

    /// Whether updates take turns, one at a time; they don't where nothing is said. It is for programs with many more threads that update than
    /// processors: there updates try again and again while the system has stopped a thread with a lock, and one that waits for its turn yields
    /// the processor, and then sleeps. With as many threads as processors turns make updates slower. Lookups, lists and waits take none.
    ///
    /// ```
    /// let index = citrus_map::Index::builder(1_000, 100).updates_in_turn(true).build()?;
    /// assert_eq!(index.handle()?.insert(5, 50), Ok(true));
    /// # Ok::<(), citrus_map::Error>(())
    /// ```
    pub fn updates_in_turn(self, in_turn: bool) -> Builder {
        Builder { in_turn, ..self }
    }

    /// Makes the index, with nothing in it. It takes all its memory at once.
    ///
    /// # Errors
    /// [`Error::Pairs`], [`Error::Handles`] and [`Error::Keep`] where a number is out of range, [`Error::NoMemory`].
    pub fn build(self) -> Result<Index, Error> {
        self.build_keyed()
    }

    /// The same with keys of another type.
    ///
    /// # Errors
    /// As [`build`](Builder::build).
    ///
    /// ```
    /// use citrus_map::{Index, Waiter};
    ///
    /// let index = Index::builder(1_000, 4).waiter(Waiter::Deer).build_keyed::<i64>()?;
    /// assert_eq!(index.insert(-5, 50), Ok(true));
    /// # Ok::<(), citrus_map::Error>(())
    /// ```
    pub fn build_keyed<K: Key>(self) -> Result<KeyedIndex<K>, Error> {
        self.build_with(ALL_TICKETS)
    }

    /// An index of sections alone, with as many handles, which wait in the same way.
    pub(crate) fn for_sections(self) -> Builder {
        Builder { waiter: self.waiter, ..Index::builder(1, self.handles) }
    }

    /// The same with so many tickets in all, which its handles share.
    pub(crate) fn build_with<K: Key>(self, tickets: u64) -> Result<KeyedIndex<K>, Error> {
        let _ = Words::<K>::GREATEST;
        let Builder { pairs, handles, waiter, in_turn, lane_sets, salt, keep } = self;
        if !(1..=MAX_PAIRS).contains(&pairs) {
            return Err(Error::Pairs);
        }
        if !(1..=MAX_HANDLES).contains(&handles) {
            return Err(Error::Handles);
        }
        if lane_sets > (MAX_HANDLES - handles) / LANES {
            return Err(Error::Handles);
        }
        let options = RawOptions::new(pairs, handles + lane_sets * LANES, waiter.number(), salt.unwrap_or_else(drawn));
        let mut first = opened(&options, keep)?;
        let lanes = open_sets(&mut first, lane_sets)?;
        let mut all = Vec::with_capacity(handles as usize);
        for _ in 1..handles {
            let mut other = RawHandle::CLOSED;
            // SAFETY: both handles are our own, `first` open as the last call left it and `other` closed.
            done(unsafe { citrus_share(&mut first, 1, fair_share(tickets, handles), &mut other) })?;
            all.push(other);
        }
        all.push(first);
        let pool = Arc::new(Pool::new(all, lanes, in_turn.then(Turns::default)));
        Ok(KeyedIndex { pairs, handles, pool, keys: PhantomData })
    }
}

/// The first handle of a new index, whose pairs and handles are in range. Where nothing is said of what handles keep back, the library says it.
fn opened(options: &RawOptions, keep: Option<u32>) -> Result<RawHandle, Error> {
    let mut first = RawHandle::CLOSED;
    // SAFETY: `first` is a closed handle of our own, and `options` a whole record. The same holds at the other call.
    let told = match keep {
        Some(keep) => unsafe { citrus_open_keeping(&mut first, options, keep) },
        None => unsafe { citrus_open_with(&mut first, options) },
    };
    match told {
        status::BAD_ARGUMENT if keep.is_some() => Err(Error::Keep),
        told => done(told).map(|()| first),
    }
}

/// The part of the tickets that each handle of an index has, where so many share them.
pub(crate) fn fair_share(tickets: u64, handles: u32) -> u64 {
    tickets / u64::from(handles)
}

/// A number that nobody can guess: the hash of nothing, by keys that the standard library drew from the system.
fn drawn() -> u64 {
    RandomState::new().build_hasher().finish()
}

/// Tells the causes of an open and of `citrus_share` that arguments in range may have.
fn done(status: i32) -> Result<(), Error> {
    match status {
        status::DONE => Ok(()),
        status::NO_MEMORY => Err(Error::NoMemory),
        status::LOST => Err(Error::Lost),
        status => panic!("the library citrus answered {status} to a new handle, which citrus.h excludes"),
    }
}

/// A concurrent ordered map from keys of a type to `u64`. Threads share it by `&` or in an [`Arc`], and each works with a [`KeyedHandle`] of its
/// own.
///
/// An index may be dropped before its handles. It is freed with the last of them.
pub struct KeyedIndex<K> {
    pairs: u32,
    handles: u32,
    pool: Arc<Pool>,
    keys: PhantomData<fn(K) -> K>,
}

/// A [`KeyedIndex`] whose keys are a `u64` each.
pub type Index = KeyedIndex<u64>;

impl Index {
    /// The same as [`new`](KeyedIndex::new), with more to say before the index is made: with keys of whatever type.
    pub fn builder(pairs: u32, handles: u32) -> Builder {
        Builder { pairs, handles, waiter: Waiter::default(), in_turn: false, lane_sets: 0, salt: None, keep: None }
    }
}

impl<K: Key> KeyedIndex<K> {
    /// A new index for 1 to [`MAX_PAIRS`] pairs, and 1 to [`MAX_HANDLES`] handles that may be out at one time.
    ///
    /// So many pairs always fit: no insert finds the index full while it has fewer. More fit as long as the handles don't keep back all the slots
    /// that there are for what removals freed ([`Builder::keep`]).
    ///
    /// # Errors
    /// [`Error::Pairs`] and [`Error::Handles`] where a number is out of range, [`Error::NoMemory`].
    ///
    /// ```
    /// use citrus_map::{Error, Index};
    ///
    /// let index = Index::new(10_000, 4)?;
    /// assert_eq!(index.handle()?.get(7), Ok(None));
    /// assert!(matches!(Index::new(0, 4), Err(Error::Pairs)));
    /// # Ok::<(), Error>(())
    /// ```
    pub fn new(pairs: u32, handles: u32) -> Result<KeyedIndex<K>, Error> {
        Index::builder(pairs, handles).build_keyed()
    }

    /// A handle for a thread. It goes back to the index when it is dropped.
    ///
    /// Take one for each thread and keep it, or call by the index itself: see [`lend`](Index::lend).
    ///
    /// # Errors
    /// [`Error::NoHandle`] where all handles are out.
    ///
    /// ```
    /// use citrus_map::{Error, Index};
    ///
    /// let index = Index::new(100, 1)?;
    /// let only = index.handle()?;
    /// assert!(matches!(index.handle(), Err(Error::NoHandle)));
    /// drop(only);
    /// assert!(index.handle().is_ok());
    /// # Ok::<(), Error>(())
    /// ```
    pub fn handle(&self) -> Result<KeyedHandle<K>, Error> {
        let placed = self.pool.take().ok_or(Error::NoHandle)?;
        Ok(KeyedHandle::new(placed, Arc::clone(&self.pool)))
    }

    /// A handle for a call, if there is one that nobody has.
    #[inline]
    pub(crate) fn taken_for_a_call(&self) -> Option<Lent<'_, K>> {
        let placed = self.pool.take_for_a_call()?;
        // SAFETY: this second one of the index's reference is never dropped, since what is lent doesn't drop it; and the index, which has the
        // first one, is borrowed for as long.
        Some(unsafe { Lent::new(KeyedHandle::new(placed, ptr::read(&self.pool))) })
    }

    /// Eight lanes, by which a thread looks up many keys at once. They go back to the index when they are dropped.
    ///
    /// # Errors
    /// [`Error::NoHandle`] where all lanes are out: the index has those that [`Builder::lanes`] said.
    pub fn lanes(&self) -> Result<Lanes<K>, Error> {
        let raw = self.pool.take_lanes().ok_or(Error::NoHandle)?;
        Ok(Lanes::new(raw, Arc::clone(&self.pool)))
    }

    /// How many handles there are, out or not.
    pub(crate) fn handles(&self) -> usize {
        self.handles as usize
    }

    /// How many handles could be taken at this moment.
    pub fn free_handles(&self) -> usize {
        self.pool.free_handles()
    }
}

impl<K> fmt::Debug for KeyedIndex<K> {
    fn fmt(&self, text: &mut fmt::Formatter<'_>) -> fmt::Result {
        text.debug_struct("Index").field("pairs", &self.pairs).field("handles", &self.handles).finish_non_exhaustive()
    }
}
