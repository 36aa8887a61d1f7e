//! A map whose values are of any type: each stands in a node of its own, whose address is the value that an index has for the key's word. A
//! key is made a word once, at the face of a call: so nothing below rests on what a type's [`Key`] says.

use crate::guards::Held;
use crate::handle::{ends, Handle};
use crate::hazards::Hazards;
use crate::index::Builder;
use crate::node::{Found, NewNode, Retired, TakenOut};
use crate::waits::{Cookie, GracePeriod, Tidied};
use crate::{Error, Index, Key};
use std::fmt;
use std::marker::PhantomData;
use std::mem::take;
use std::ops::{Deref, RangeBounds};
use std::sync::{Arc, Mutex, MutexGuard, PoisonError};

/// So many values that were taken out by [`MapHandle::retire`] a handle keeps at most. Where there are more it waits for their readers.
pub const MOST_RETIRED: usize = 64;

/// From so many on it begins a wait for their readers, and asks for that at later calls.
const SOME_RETIRED: usize = 16;

/// How many pairs are listed at a time where a map is dropped.
const PAGE: usize = 256;

/// A concurrent map from keys of a type to values of any type that threads may share. Threads share it by `&` or in an [`Arc`], and each works with a
/// [`MapHandle`] of its own.
///
/// ```
/// let map = citrus_map::Map::new(1_000, 2)?;
/// let mut handle = map.handle()?;
/// handle.insert(5, String::from("five"))?;
/// if let Some(text) = handle.get(5)? {
///     assert_eq!(text.len(), 4);
/// }
/// assert_eq!(handle.remove(5)?, Some(String::from("five")));
/// # Ok::<(), citrus_map::Error>(())
/// ```
///
/// Values are read by several threads and dropped by any:
///
/// ```compile_fail,E0599
/// citrus_map::Map::<std::cell::Cell<u64>>::new(1_000, 2);
/// ```
///
/// What they borrow outlives the map and its handles:
///
/// ```compile_fail,E0597
/// let map = citrus_map::Map::new(1_000, 2).unwrap();
/// let word = String::from("dropped before the map");
/// map.handle().unwrap().insert(5, word.as_str()).unwrap();
/// ```
///
/// And so it is where the map is lent as one of values that live shorter:
///
/// ```compile_fail,E0597
/// let map = citrus_map::Map::<&'static str>::new(1_000, 2).unwrap();
/// {
///     let word = String::from("short");
///     fn put<'a>(map: &citrus_map::Map<&'a str>, word: &'a str) {
///         map.handle().unwrap().insert(5, word).unwrap();
///     }
///     put(&map, &word);
/// }
/// let text: &'static str = *map.handle().unwrap().get(5).unwrap().unwrap();
/// ```
pub struct KeyedMap<K, V> {
    shared: Arc<Shared<V>>,
    keys: PhantomData<fn(K) -> K>,
}

/// A [`KeyedMap`] whose keys are a `u64` each.
pub type Map<V> = KeyedMap<u64, V>;

/// What a map and its handles share. Its end is that of the last of them.
struct Shared<V> {
    index: Index,
    /// What each handle, by its place, took out and hasn't given up: here while nobody has the handle. The lock also makes `V` invariant,
    /// as it has to be since a `&Map<V>` takes values.
    kept: Vec<Mutex<Kept<V>>>,
    hazards: Hazards,
}

/// What a handle took out and hasn't given up, and its wait for the readers of the first of these.
struct Kept<V> {
    retired: Retired<V>,
    begun: Option<Begun>,
}

/// A wait that was begun when the handle had taken out so many nodes, for the keys of all of them.
struct Begun {
    cookie: Cookie,
    nodes: usize,
}

impl<V> Default for Kept<V> {
    fn default() -> Kept<V> {
        Kept { retired: Retired::default(), begun: None }
    }
}

impl<V> Shared<V> {
    fn kept(&self, place: usize) -> MutexGuard<'_, Kept<V>> {
        self.kept[place].lock().unwrap_or_else(PoisonError::into_inner)
    }

    /// Adds the nodes of all pairs that the index has.
    ///
    /// # Safety
    /// No handle is out, and none is taken later.
    unsafe fn take_all(&self, nodes: &mut Retired<V>) -> Result<(), Error> {
        let handle = self.index.handle()?;
        let mut from = Some(0);
        while let Some(low) = from {
            let page = handle.page(low.., PAGE)?;
            // SAFETY: each page is exact (`listed`) and tells the keys after those before it: so each pair is told once.
            page.pairs.iter().for_each(|(_, word)| nodes.push(unsafe { TakenOut::new(*word) }));
            from = page.next;
        }
        Ok(())
    }
}

impl<V> Drop for Shared<V> {
    fn drop(&mut self) {
        let mut last: Vec<Retired<V>> = (0..self.kept.len()).map(|place| take(&mut self.kept(place).retired)).collect();
        let mut there = Retired::default();
        // SAFETY: each handle that is out has an `Arc` of this. Where they can't be listed, for want of memory or of a handle that isn't used
        // up, the rest is leaked.
        let _ = unsafe { self.take_all(&mut there) };
        last.push(there);
        // SAFETY: no handle is left, and so no reader: a guard borrows a handle.
        drop(last.iter_mut().map(|nodes| unsafe { nodes.give_up(nodes.len()) }).collect::<Vec<_>>());
    }
}

impl<K: Key, V: Send + Sync> KeyedMap<K, V> {
    /// A new map for 1 to [`MAX_PAIRS`](crate::MAX_PAIRS) pairs, and 1 to [`MAX_HANDLES`](crate::MAX_HANDLES) handles that may be out at one
    /// time: as [`Index::new`].
    ///
    /// # Errors
    /// [`Error::Pairs`] and [`Error::Handles`] where a number is out of range, [`Error::NoMemory`].
    pub fn new(pairs: u32, handles: u32) -> Result<KeyedMap<K, V>, Error> {
        KeyedMap::build(Index::builder(pairs, handles))
    }

    /// The same, of what a builder says.
    ///
    /// # Errors
    /// As [`Map::new`].
    ///
    /// ```
    /// use citrus_map::{Index, Map, Waiter};
    ///
    /// let map = Map::build(Index::builder(1_000, 4).waiter(Waiter::Deer))?;
    /// map.handle()?.insert(5, String::from("five"))?;
    /// # Ok::<(), citrus_map::Error>(())
    /// ```
    pub fn build(builder: Builder) -> Result<KeyedMap<K, V>, Error> {
        Ok(KeyedMap::over(builder.build()?))
    }

    /// A map over an empty index of which no handle is out.
    pub(crate) fn over(index: Index) -> KeyedMap<K, V> {
        let kept = (0..index.handles()).map(|_| Mutex::default()).collect();
        let hazards = Hazards::new(index.handles());
        KeyedMap { shared: Arc::new(Shared { index, kept, hazards }), keys: PhantomData }
    }

    /// A handle for a thread. It goes back to the map when it is dropped.
    ///
    /// # Errors
    /// [`Error::NoHandle`] where all are out.
    pub fn handle(&self) -> Result<KeyedMapHandle<K, V>, Error> {
        let handle = self.shared.index.handle()?;
        let kept = take(&mut *self.shared.kept(handle.place()));
        Ok(KeyedMapHandle { kept, handle, shared: Arc::clone(&self.shared), keys: PhantomData })
    }

    /// How many handles could be taken at this moment.
    pub fn free_handles(&self) -> usize {
        self.shared.index.free_handles()
    }
}

impl<K, V> fmt::Debug for KeyedMap<K, V> {
    fn fmt(&self, text: &mut fmt::Formatter<'_>) -> fmt::Result {
        text.debug_struct("Map").field("index", &self.shared.index).finish_non_exhaustive()
    }
}

/// A value that wasn't put in, and why.
pub struct Refused<V> {
    /// [`Error::Present`] or [`Error::Absent`], or why the call failed.
    pub cause: Error,
    /// The value. It is none only where a call gave up, so that the value may be in the map, or where it is in the map and the wait for the
    /// readers of the one before gave up.
    pub value: Option<V>,
}

impl<V> Refused<V> {
    fn of(cause: Error, node: NewNode<V>) -> Refused<V> {
        let value = match cause {
            // Whether it is in the map isn't known. If not, it is leaked.
            Error::Lost => None,
            // SAFETY: but for LOST a call that told no update made none (`inserted`, `replaced` and `upserted` of `citrus_c`): so the index
            // never had the node.
            _ => Some(unsafe { node.into_value() }),
        };
        Refused { cause, value }
    }
}

impl<V> fmt::Debug for Refused<V> {
    fn fmt(&self, text: &mut fmt::Formatter<'_>) -> fmt::Result {
        text.debug_struct("Refused").field("cause", &self.cause).finish_non_exhaustive()
    }
}

impl<V> fmt::Display for Refused<V> {
    fn fmt(&self, text: &mut fmt::Formatter<'_>) -> fmt::Result {
        self.cause.fmt(text)
    }
}

impl<V> std::error::Error for Refused<V> {}

/// Drops the value.
impl<V> From<Refused<V>> for Error {
    fn from(refused: Refused<V>) -> Error {
        refused.cause
    }
}

/// What one thread works with on a [`Map`]. It may be sent to another thread, and it isn't shared:
///
/// ```compile_fail,E0277
/// fn shared<T: Sync>() {}
/// shared::<citrus_map::MapHandle<u64>>();
/// ```
///
/// While a value is read the handle makes no other call:
///
/// ```compile_fail,E0499
/// let map = citrus_map::Map::<u64>::new(100, 2).unwrap();
/// let mut handle = map.handle().unwrap();
/// let value = handle.get(5).unwrap();
/// handle.remove(5).unwrap();
/// drop(value);
/// ```
///
/// A thread may have several handles of a map, and read a value by each. While it does it updates by none of them: [`Error::Holds`].
///
/// What it [retired](MapHandle::retire) and hasn't dropped stays with the handle that goes back, until that is taken again or the map is
/// dropped. [`flush`](MapHandle::flush) drops it before.
pub struct KeyedMapHandle<K, V> {
    kept: Kept<V>,
    pub(crate) handle: Handle,
    shared: Arc<Shared<V>>,
    keys: PhantomData<fn(K) -> K>,
}

/// A [`KeyedMapHandle`] whose keys are a `u64` each.
pub type MapHandle<V> = KeyedMapHandle<u64, V>;

/// A value that is read. It is there until the guard is dropped, also where its key is taken out meanwhile: who takes it out waits for this
/// guard. So a guard is for a moment, as that of a lock, and what its thread waits for meanwhile mustn't update the map.
///
/// A guard that is forgotten, as by [`std::mem::forget`], keeps its value there until the next call of its handle, or until that is dropped.
///
/// ```compile_fail,E0597
/// let map = citrus_map::Map::<String>::new(100, 2).unwrap();
/// let value = {
///     let mut handle = map.handle().unwrap();
///     handle.get(5).unwrap()
/// };
/// drop(value);
/// ```
///
/// What it leads to doesn't outlive it:
///
/// ```compile_fail,E0505
/// let map = citrus_map::Map::<String>::new(100, 2).unwrap();
/// let mut handle = map.handle().unwrap();
/// let guard = handle.get(5).unwrap().unwrap();
/// let text: &str = &guard;
/// drop(guard);
/// println!("{text}");
/// ```
///
/// It stays on its thread, and so no task that may move holds one over an `await`:
///
/// ```compile_fail,E0277
/// fn sent<T: Send>(_: T) {}
/// let map = citrus_map::Map::<String>::new(100, 2).unwrap();
/// let mut handle = map.handle().unwrap();
/// sent(handle.get(5).unwrap());
/// ```
// The node is no `&`: that would promise it to a function that the guard is moved into for as long as the function runs.
#[must_use = "the value is given up where it is dropped"]
pub struct Guard<'h, V, K = u64> {
    found: Found<V>,
    section: Held<'h>,
    keys: PhantomData<fn() -> K>,
}

impl<V, K> Deref for Guard<'_, V, K> {
    type Target = V;

    fn deref(&self) -> &V {
        &self.found.node().value
    }
}

impl<V, K: Key> Guard<'_, V, K> {
    /// The key.
    pub fn key(guard: &Self) -> K {
        K::decode(guard.section.key())
    }
}

impl<V: fmt::Debug, K> fmt::Debug for Guard<'_, V, K> {
    fn fmt(&self, text: &mut fmt::Formatter<'_>) -> fmt::Result {
        (**self).fmt(text)
    }
}

impl<V: fmt::Display, K> fmt::Display for Guard<'_, V, K> {
    fn fmt(&self, text: &mut fmt::Formatter<'_>) -> fmt::Result {
        (**self).fmt(text)
    }
}

impl<K: Key, V: Send + Sync> KeyedMapHandle<K, V> {
    /// The value of the key, where it is present. It takes no lock and waits for nobody.
    ///
    /// # Errors
    /// [`Error::Lost`], as of each call.
    pub fn get(&mut self, key: K) -> Result<Option<Guard<'_, V, K>>, Error> {
        self.get_word(key.encode())
    }

    /// The same of a key by its word.
    fn get_word(&mut self, key: u64) -> Result<Option<Guard<'_, V, K>>, Error> {
        let mut asked = Some(key);
        self.get_first_of(|_| Ok(asked.take()))
    }

    /// The same of the first of the words that `next` tells that is present when it comes to it.
    pub(crate) fn get_first_of(
        &mut self,
        next: impl FnMut(&Handle) -> Result<Option<u64>, Error>,
    ) -> Result<Option<Guard<'_, V, K>>, Error> {
        let section = match self.handle.hold_first_of(next)? {
            Some(section) => section,
            None => return Ok(None),
        };
        // SAFETY: the guard has its section.
        let found = unsafe { Found::new(section.value()) };
        Ok(Some(Guard { found, section, keys: PhantomData }))
    }

    /// Adds the pair where the key is absent.
    ///
    /// # Errors
    /// [`Error::Present`] where the key is there already, and keeps its value; [`Error::Full`], [`Error::Holds`], [`Error::Spent`].
    ///
    /// ```
    /// use citrus_map::{Error, Map};
    ///
    /// let map = Map::new(100, 1)?;
    /// let mut handle = map.handle()?;
    /// handle.insert(5, "five")?;
    /// let refused = handle.insert(5, "cinq").unwrap_err();
    /// assert_eq!((refused.cause, refused.value), (Error::Present, Some("cinq")));
    /// # Ok::<(), Error>(())
    /// ```
    pub fn insert(&mut self, key: K, value: V) -> Result<(), Refused<V>> {
        let word = key.encode();
        let node = NewNode::new(word, value);
        match self.handle.insert(word, node.word()) {
            Ok(true) => Ok(()),
            Ok(false) => Err(Refused::of(Error::Present, node)),
            Err(cause) => Err(Refused::of(cause, node)),
        }
    }

    /// Gives the key another value where it is present, waits for the readers of the one before, and gives that back.
    ///
    /// # Errors
    /// [`Error::Absent`] where the key is absent, and stays so; [`Error::Holds`], [`Error::Spent`].
    ///
    /// ```
    /// let map = citrus_map::Map::new(100, 1)?;
    /// let mut handle = map.handle()?;
    /// handle.insert(5, "five")?;
    /// assert_eq!(handle.replace(5, "cinq")?, "five");
    /// # Ok::<(), citrus_map::Error>(())
    /// ```
    pub fn replace(&mut self, key: K, value: V) -> Result<V, Refused<V>> {
        let word = key.encode();
        let node = NewNode::new(word, value);
        match self.handle.replace(word, node.word()) {
            // SAFETY: the update replaced this value of the key's, and the index has it no more (`replaced`).
            Ok(Some(word)) => self.outwait(unsafe { TakenOut::new(word) }).map_err(|cause| Refused { cause, value: None }),
            Ok(None) => Err(Refused::of(Error::Absent, node)),
            Err(cause) => Err(Refused::of(cause, node)),
        }
    }

    /// Gives the key what `change` makes of its value where it is present, waits for the readers of the value before, and gives that back.
    /// It is one update. Where another thread gives the key another value meanwhile, what `change` made is dropped, and it is called once
    /// more, with that.
    ///
    /// `change` reads the value as a [`Guard`] does, so it is to be short and makes no update of the map.
    ///
    /// # Errors
    /// [`Error::Holds`], [`Error::Spent`]; as [`remove`](MapHandle::remove) where the wait for readers fails.
    ///
    /// ```
    /// let map = citrus_map::Map::new(100, 1)?;
    /// let mut handle = map.handle()?;
    /// assert_eq!(handle.update(5, |words: &Vec<&str>| [&words[..], &["cinq"]].concat())?, None);
    /// handle.insert(5, vec!["five"])?;
    /// assert_eq!(handle.update(5, |words| [&words[..], &["cinq"]].concat())?, Some(vec!["five"]));
    /// assert_eq!(handle.remove(5)?, Some(vec!["five", "cinq"]));
    /// # Ok::<(), citrus_map::Error>(())
    /// ```
    pub fn update(&mut self, key: K, mut change: impl FnMut(&V) -> V) -> Result<Option<V>, Error> {
        let word = key.encode();
        // Where it will be refused, `change` isn't called.
        self.handle.may_wait()?;
        let place = self.handle.place();
        loop {
            let held = match self.handle.hold(word)? {
                Some(held) => held,
                None => return Ok(None),
            };
            let expected = held.value();
            // SAFETY: `held` is its section, and is left behind this.
            let node = NewNode::new(word, change(&unsafe { Found::new(expected) }.node().value));
            let named = self.shared.hazards.name(place, expected);
            drop(held);
            let told = self.handle.compare_exchange(word, expected, node.word());
            drop(named);
            match told {
                // SAFETY: the update replaced this value of the key's, and the index has it no more (`compared`).
                Ok(Ok(old)) => return self.outwait(unsafe { TakenOut::new(old) }).map(Some),
                Ok(Err(Some(_))) => drop(Refused::of(Error::Present, node)),
                Ok(Err(None)) => {
                    drop(Refused::of(Error::Absent, node));
                    return Ok(None);
                }
                Err(cause) => return Err(Refused::of(cause, node).cause),
            }
        }
    }

    /// Gives the key this value. Where it had one, waits for the readers of that and gives it back.
    ///
    /// # Errors
    /// [`Error::Full`], [`Error::Holds`], [`Error::Spent`]; [`Error::Moved`] as [`Handle::upsert`].
    ///
    /// ```
    /// let map = citrus_map::Map::new(100, 1)?;
    /// let mut handle = map.handle()?;
    /// assert_eq!(handle.upsert(5, "five")?, None);
    /// assert_eq!(handle.upsert(5, "cinq")?, Some("five"));
    /// # Ok::<(), citrus_map::Error>(())
    /// ```
    pub fn upsert(&mut self, key: K, value: V) -> Result<Option<V>, Refused<V>> {
        let word = key.encode();
        let node = NewNode::new(word, value);
        match self.handle.upsert(word, node.word()) {
            // SAFETY: as in `replace` (`upserted`).
            Ok(Some(word)) => match self.outwait(unsafe { TakenOut::new(word) }) {
                Ok(value) => Ok(Some(value)),
                Err(cause) => Err(Refused { cause, value: None }),
            },
            Ok(None) => Ok(None),
            Err(cause) => Err(Refused::of(cause, node)),
        }
    }

    /// Takes the pair out where the key is present, waits for the readers of its value, and gives it back.
    ///
    /// # Errors
    /// [`Error::Holds`], [`Error::Spent`]. Where [`Error::Spent`] or [`Error::Lost`] is told after the pair was taken out, its value is dropped
    /// with the map.
    ///
    /// ```
    /// let map = citrus_map::Map::new(100, 1)?;
    /// let mut handle = map.handle()?;
    /// handle.insert(5, "five")?;
    /// assert_eq!(handle.remove(5)?, Some("five"));
    /// assert_eq!(handle.remove(5)?, None);
    /// # Ok::<(), citrus_map::Error>(())
    /// ```
    pub fn remove(&mut self, key: K) -> Result<Option<V>, Error> {
        self.remove_word(key.encode())
    }

    /// The same of a key by its word.
    pub(crate) fn remove_word(&mut self, key: u64) -> Result<Option<V>, Error> {
        match self.take_out(key)? {
            Some(node) => Ok(Some(self.outwait(node)?)),
            None => Ok(None),
        }
    }

    /// Takes the pair out where the key is present, and says whether it was. Its value is dropped by a later `retire` or
    /// [`flush`](MapHandle::flush) of this handle, when its readers are gone. So it doesn't wait for them, but where [`MOST_RETIRED`] values
    /// are still to be dropped. Then, and where the tree itself has to wait ([`Handle::remove`]), it waits for readers.
    ///
    /// # Errors
    /// As [`remove`](MapHandle::remove).
    ///
    /// ```
    /// let map = citrus_map::Map::new(100, 2)?;
    /// let (mut reader, mut writer) = (map.handle()?, map.handle()?);
    /// writer.insert(5, String::from("five"))?;
    /// std::thread::scope(|scope| {
    ///     let text = reader.get(5).unwrap().unwrap();
    ///     let retired = scope.spawn(|| writer.retire(5)).join().unwrap();
    ///     assert_eq!(retired, Ok(true));
    ///     assert_eq!(*text, "five");
    /// });
    /// assert!(!reader.contains_key(5)?);
    /// writer.flush()?;
    /// # Ok::<(), citrus_map::Error>(())
    /// ```
    pub fn retire(&mut self, key: K) -> Result<bool, Error> {
        self.retire_word(key.encode())
    }

    /// The same of a key by its word.
    pub(crate) fn retire_word(&mut self, key: u64) -> Result<bool, Error> {
        self.retire_by(|handle| handle.take_out(key))
    }

    /// Takes the pair out as [`remove`](MapHandle::remove), where `goes` says yes to its value. Where another thread gives the key another value
    /// meanwhile, `goes` is asked once more, with that. Where it waits for readers, as the tree may have to, whoever takes the same value out
    /// meanwhile and waits for its readers waits for this call too.
    ///
    /// `goes` reads the value as a [`Guard`] does, so it is to be short and makes no update of the map.
    ///
    /// # Errors
    /// As [`remove`](MapHandle::remove).
    ///
    /// ```
    /// let map = citrus_map::Map::new(100, 1)?;
    /// let mut handle = map.handle()?;
    /// handle.insert(5, "five")?;
    /// assert_eq!(handle.remove_if(5, |value| value.is_empty())?, None);
    /// assert_eq!(handle.remove_if(5, |value| value.len() == 4)?, Some("five"));
    /// # Ok::<(), citrus_map::Error>(())
    /// ```
    pub fn remove_if(&mut self, key: K, goes: impl FnMut(&V) -> bool) -> Result<Option<V>, Error> {
        // Where it will be refused, `goes` isn't called.
        self.handle.may_wait()?;
        match self.take_while(key.encode(), goes)? {
            Some(node) => Ok(Some(self.outwait(node)?)),
            None => Ok(None),
        }
    }

    /// Takes the pair out as [`retire`](MapHandle::retire), where `goes` says yes to its value, and says whether it did: as
    /// [`remove_if`](MapHandle::remove_if).
    ///
    /// # Errors
    /// As [`remove`](MapHandle::remove).
    pub fn retire_if(&mut self, key: K, goes: impl FnMut(&V) -> bool) -> Result<bool, Error> {
        self.retire_word_if(key.encode(), goes)
    }

    /// The same of a key by its word.
    pub(crate) fn retire_word_if(&mut self, key: u64, goes: impl FnMut(&V) -> bool) -> Result<bool, Error> {
        self.retire_by(|handle| handle.take_while(key, goes))
    }

    /// Retires what this takes out.
    fn retire_by(&mut self, take: impl FnOnce(&mut Self) -> Result<Option<TakenOut<V>>, Error>) -> Result<bool, Error> {
        // What is asked for may have to outlast a hazard.
        self.handle.may_wait()?;
        // The removal's own wait may take the place of the one that was begun: ask for that before.
        self.ask();
        match take(self)? {
            Some(node) => {
                self.kept.retired.push(node);
                self.settle();
                Ok(true)
            }
            None => Ok(false),
        }
    }

    /// Waits for the readers of all values that were retired by this handle, and drops them.
    ///
    /// # Errors
    /// [`Error::Holds`], [`Error::Spent`], [`Error::Lost`]: then they stay retired.
    pub fn flush(&mut self) -> Result<(), Error> {
        if let Some((low, high)) = self.kept.retired.keys() {
            self.handle.wait(low..=high)?;
            self.kept.begun = None;
            // SAFETY: this handle took each of them out, and then waited for the keys of all (`waited`).
            unsafe { self.drop_first(self.kept.retired.len()) };
        }
        Ok(())
    }

    /// Makes the tree shallow for later calls: as [`Handle::tidy`], with the same errors.
    ///
    /// # Errors
    /// As [`Handle::tidy`].
    pub fn tidy(&self, keys: impl RangeBounds<K>, turns: u32) -> Result<Tidied<K>, Error> {
        let Tidied { made, next } = match ends(&keys) {
            Some((low, high)) => self.handle.tidy(low..=high, turns)?,
            None => Tidied { made: 0, next: None },
        };
        Ok(Tidied { made, next: next.map(K::decode) })
    }

    fn take_out(&mut self, key: u64) -> Result<Option<TakenOut<V>>, Error> {
        let word = self.handle.remove(key)?;
        // SAFETY: the update took this pair out, and told its value right before (`removed`).
        Ok(word.map(|word| unsafe { TakenOut::new(word) }))
    }

    /// Takes the pair out while `goes` says yes to its value: the node that was asked about, which nobody drops before that is told.
    fn take_while(&mut self, key: u64, mut goes: impl FnMut(&V) -> bool) -> Result<Option<TakenOut<V>>, Error> {
        let place = self.handle.place();
        loop {
            let held = match self.handle.hold(key)? {
                Some(held) => held,
                None => return Ok(None),
            };
            let word = held.value();
            // SAFETY: `held` is its section, and is left behind this.
            if !goes(&unsafe { Found::<V>::new(word) }.node().value) {
                return Ok(None);
            }
            let named = self.shared.hazards.name(place, word);
            drop(held);
            let told = self.handle.take(key, word)?;
            drop(named);
            match told {
                // SAFETY: the update took this value of the key's out, and the index has it no more (`taken`).
                Ok(word) => return Ok(Some(unsafe { TakenOut::new(word) })),
                Err(Some(_)) => (),
                Err(None) => return Ok(None),
            }
        }
    }

    /// Waits for the readers of a node that this handle took out. Where that fails the node is kept: a reader may be left.
    fn outwait(&mut self, node: TakenOut<V>) -> Result<V, Error> {
        match self.handle.wait(node.key()..=node.key()) {
            Ok(()) => {
                self.shared.hazards.outlast(node.word());
                // SAFETY: this handle took it out, and then waited for its key (`waited`).
                Ok(unsafe { node.into_box() }.value)
            }
            Err(cause) => {
                self.kept.retired.push(node);
                Err(cause)
            }
        }
    }

    /// Drops so many of the retired values, the first ones.
    ///
    /// # Safety
    /// As of [`Retired::give_up`].
    unsafe fn drop_first(&mut self, count: usize) {
        self.kept.retired.words(count).for_each(|word| self.shared.hazards.outlast(word));
        // SAFETY: so says the caller.
        drop(unsafe { self.kept.retired.give_up(count) });
    }

    /// Drops the first of the retired values where the wait for their readers is over. A value that another handle's update compares with stays
    /// for a later wait: that update may wait for readers.
    fn ask(&mut self) {
        if let Some(begun) = self.kept.begun.take() {
            match self.handle.poll(begun.cookie) {
                // SAFETY: this handle took each of them out, and then began the wait for the keys of all (`begun`, `polled`).
                Ok(GracePeriod::Over) => {
                    drop(unsafe { self.kept.retired.give_up_but(begun.nodes, |word| self.shared.hazards.is_named(word)) })
                }
                Ok(GracePeriod::UnderWay) => self.kept.begun = Some(begun),
                Ok(GracePeriod::Displaced) | Err(_) => {}
            }
        }
    }

    /// Begins a wait where there are some retired values and none is under way, and waits where there are many.
    fn settle(&mut self) {
        let nodes = self.kept.retired.len();
        if nodes >= MOST_RETIRED {
            // Where it fails they stay.
            let _ = self.flush();
        } else if let (None, Some((low, high)), true) = (&self.kept.begun, self.kept.retired.keys(), nodes >= SOME_RETIRED) {
            self.kept.begun = self.handle.begin(low..=high).ok().map(|cookie| Begun { cookie, nodes });
        }
    }
}

impl<K, V> Drop for KeyedMapHandle<K, V> {
    fn drop(&mut self) {
        // The handle goes back after this.
        *self.shared.kept(self.handle.place()) = take(&mut self.kept);
    }
}

impl<K, V> fmt::Debug for KeyedMapHandle<K, V> {
    fn fmt(&self, text: &mut fmt::Formatter<'_>) -> fmt::Result {
        text.debug_struct("MapHandle").finish_non_exhaustive()
    }
}
