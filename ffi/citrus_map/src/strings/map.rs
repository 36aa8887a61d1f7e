//! The map from strings, and its handles.

use super::keys::section_key;
use super::nodes::{Found, NewLeaf, TakenOut};
use super::retired::Kept;
use super::shared::Shared;
use super::ways::{Placed, Ways};
use crate::index::Builder;
use crate::{Error, Handle, Index, Refused, Section, Stats};
use std::fmt;
use std::mem::take;
use std::ops::Deref;
use std::sync::atomic::Ordering::SeqCst;
use std::sync::Arc;

/// A concurrent map from strings, or any bytes, to values of any type that threads may share, in the order of the bytes. Threads share it by `&` or
/// in an [`Arc`], and each works with a [`StringMapHandle`] of its own.
///
/// ```
/// use citrus_map::{Prefix, StringMap};
///
/// let map = StringMap::new(1_000, 2)?;
/// let mut handle = map.handle()?;
/// handle.insert("user:7", 70)?;
/// if let Some(age) = handle.get("user:7")? {
///     assert_eq!(*age, 70);
/// }
/// assert_eq!(handle.keys(Prefix("user:"))?, [b"user:7"]);
/// assert_eq!(handle.remove("user:7")?, Some(70));
/// # Ok::<(), citrus_map::Error>(())
/// ```
///
/// It has a pair of its index for each string, and one for each layer that stands ([`layers`](StringMap::layers)), which is made where two strings
/// go on from one slice of theirs: 7 bytes at first and then 4. A layer has all that the strings have in common there, however long, and goes when
/// its last string does. Where no string is removed layers are fewer than strings; ids and UUIDs need hardly any, URLs one for four strings. An
/// update that makes one has two pairs more for a moment.
///
/// Who chooses the strings can make a lookup as many searches as his string has slices, and layers: one for each 4 bytes of each string that is there,
/// and no more. Then pairs run out, and inserts answer [`Error::Full`]. The ways of other strings get no longer, but for those that begin as his.
///
/// Values are read by several threads and dropped by any:
///
/// ```compile_fail,E0599
/// citrus_map::StringMap::<std::cell::Cell<u64>>::new(1_000, 2);
/// ```
///
/// What they borrow outlives the map and its handles:
///
/// ```compile_fail,E0597
/// let map = citrus_map::StringMap::new(1_000, 2).unwrap();
/// let word = String::from("dropped before the map");
/// map.handle().unwrap().insert("five", word.as_str()).unwrap();
/// ```
pub struct StringMap<V> {
    pub(super) shared: Arc<Shared<V>>,
}

impl<V: Send + Sync> StringMap<V> {
    /// A new map in which so many pairs always fit, those of strings and of layers, with so many handles that may be out at one time: as
    /// [`Index::new`].
    ///
    /// # Errors
    /// [`Error::Pairs`] and [`Error::Handles`] where a number is out of range, [`Error::NoMemory`].
    pub fn new(pairs: u32, handles: u32) -> Result<StringMap<V>, Error> {
        StringMap::build(Index::builder(pairs, handles))
    }

    /// The same, of what a builder says.
    ///
    /// # Errors
    /// As [`StringMap::new`], and [`Error::Keep`].
    ///
    /// ```
    /// use citrus_map::{Index, StringMap, Waiter};
    ///
    /// let map = StringMap::build(Index::builder(1_000, 4).waiter(Waiter::Deer))?;
    /// map.handle()?.insert("five", 5)?;
    /// # Ok::<(), citrus_map::Error>(())
    /// ```
    pub fn build(builder: Builder) -> Result<StringMap<V>, Error> {
        Ok(StringMap::over(builder.build()?, builder.for_sections().build()?))
    }

    /// A map over two empty indexes of which no handle is out.
    pub(crate) fn over(index: Index, domain: Index) -> StringMap<V> {
        StringMap { shared: Arc::new(Shared::new(index, domain)) }
    }

    /// A handle for a thread. It goes back to the map when it is dropped.
    ///
    /// # Errors
    /// [`Error::NoHandle`] where all are out.
    pub fn handle(&self) -> Result<StringMapHandle<V>, Error> {
        let index = self.shared.index.handle()?;
        let domain = self.shared.domain.handle()?;
        let kept = take(&mut *self.shared.kept(domain.place()));
        Ok(StringMapHandle { kept, domain, ways: Ways { index, shared: Arc::clone(&self.shared) } })
    }
}

impl<V> StringMap<V> {
    /// How many handles could be taken at this moment.
    pub fn free_handles(&self) -> usize {
        self.shared.index.free_handles().min(self.shared.domain.free_handles())
    }

    /// How many layers stand in the index, each with a pair. One that is just being made may be counted already.
    pub fn layers(&self) -> u64 {
        self.shared.layers.load(SeqCst)
    }
}

impl<V> fmt::Debug for StringMap<V> {
    fn fmt(&self, text: &mut fmt::Formatter<'_>) -> fmt::Result {
        text.debug_struct("StringMap").field("index", &self.shared.index).finish_non_exhaustive()
    }
}

/// What becomes of a string that was looked at: see [`StringMapHandle::change`].
#[derive(Clone, Copy, Debug, PartialEq, Eq, Hash)]
pub enum Change<V> {
    /// It stays as it is.
    Leave,
    /// It has this value from now on.
    Put(V),
    /// It is taken out, if it is there.
    Remove,
}

/// What one thread works with on a [`StringMap`]. It may be sent to another thread, and it isn't shared:
///
/// ```compile_fail,E0277
/// fn shared<T: Sync>() {}
/// shared::<citrus_map::StringMapHandle<u64>>();
/// ```
///
/// While a value is read the handle makes no other call:
///
/// ```compile_fail,E0499
/// let map = citrus_map::StringMap::<u64>::new(100, 2).unwrap();
/// let mut handle = map.handle().unwrap();
/// let value = handle.get("five").unwrap();
/// handle.remove("five").unwrap();
/// drop(value);
/// ```
///
/// A thread may have several handles of a map, and read a value by each. While it does it updates by none of them: [`Error::Holds`].
///
/// Who reads a value for long keeps back what others take out: calls that wait for readers wait for him where their strings have the same first 7 bytes,
/// and all of them wait for a visit. No lookup and no [`insert`](StringMapHandle::insert) does, nor a [`retire`](StringMapHandle::retire), but where
/// [`MOST_RETIRED`](crate::MOST_RETIRED) objects are still to be dropped.
///
/// What it took out and hasn't dropped stays with the handle that goes back, until that is taken again or the map is dropped.
/// [`flush`](StringMapHandle::flush) drops it before.
///
/// Any call may answer [`Error::Lost`] and [`Error::Spent`], which are years away. What a call took out before it was refused stays retired.
pub struct StringMapHandle<V> {
    pub(super) kept: Kept<V>,
    /// It has the sections, and goes back before the handle of the index: so who has that finds one here.
    pub(super) domain: Handle,
    pub(super) ways: Ways<V>,
}

/// A value that is read. It is there until the guard is dropped, also where its string is taken out meanwhile: as the [`Guard`](crate::Guard) of a
/// [`Map`](crate::Map).
///
/// ```compile_fail,E0597
/// let map = citrus_map::StringMap::<String>::new(100, 2).unwrap();
/// let value = {
///     let mut handle = map.handle().unwrap();
///     handle.get("five").unwrap()
/// };
/// drop(value);
/// ```
///
/// What it leads to doesn't outlive it:
///
/// ```compile_fail,E0505
/// let map = citrus_map::StringMap::<String>::new(100, 2).unwrap();
/// let mut handle = map.handle().unwrap();
/// let guard = handle.get("five").unwrap().unwrap();
/// let text: &str = &guard;
/// drop(guard);
/// println!("{text}");
/// ```
///
/// It stays on its thread:
///
/// ```compile_fail,E0277
/// fn sent<T: Send>(_: T) {}
/// let map = citrus_map::StringMap::<String>::new(100, 2).unwrap();
/// let mut handle = map.handle().unwrap();
/// sent(handle.get("five").unwrap());
/// ```
// The leaf is no `&`: that would promise it to a function that the guard is moved into for as long as the function runs.
#[must_use = "the value is given up where it is dropped"]
pub struct StringGuard<'h, V> {
    found: Found<V>,
    _within: Section<'h>,
}

impl<V> Deref for StringGuard<'_, V> {
    type Target = V;

    fn deref(&self) -> &V {
        self.found.value()
    }
}

impl<V> StringGuard<'_, V> {
    /// The string.
    pub fn key(guard: &Self) -> &[u8] {
        guard.found.text()
    }
}

impl<V: fmt::Debug> fmt::Debug for StringGuard<'_, V> {
    fn fmt(&self, text: &mut fmt::Formatter<'_>) -> fmt::Result {
        (**self).fmt(text)
    }
}

impl<V: fmt::Display> fmt::Display for StringGuard<'_, V> {
    fn fmt(&self, text: &mut fmt::Formatter<'_>) -> fmt::Result {
        (**self).fmt(text)
    }
}

/// The value of a leaf that wasn't put in, and why.
fn refused<V>(cause: Error, leaf: NewLeaf<V>) -> Refused<V> {
    let value = match cause {
        // Whether it is in the map isn't known. If not, it is leaked.
        Error::Lost => None,
        // SAFETY: but for LOST a call that told no update made none (`inserted`, `compared`). Under the keys of a layer that nobody knew, which it
        // may have had, nobody finds it.
        _ => Some(unsafe { leaf.into_value() }),
    };
    Refused { cause, value }
}

impl<V: Send + Sync> StringMapHandle<V> {
    /// The value of the string, where it is present. It takes no lock and waits for nobody.
    ///
    /// # Errors
    /// [`Error::Spent`] and [`Error::Lost`], as of each call.
    pub fn get(&mut self, text: impl AsRef<[u8]>) -> Result<Option<StringGuard<'_, V>>, Error> {
        let text = text.as_ref();
        let within = self.domain.enter(section_key(text))?;
        let found = self.ways.find(&within, text)?.map(|(found, _)| found);
        Ok(found.map(|found| StringGuard { found, _within: within }))
    }

    /// Whether the string is present; as [`get`](StringMapHandle::get).
    pub fn contains_key(&mut self, text: impl AsRef<[u8]>) -> Result<bool, Error> {
        Ok(self.get(text)?.is_some())
    }

    /// Adds the pair where the string is absent.
    ///
    /// # Errors
    /// [`Error::Present`] where the string is there already, and keeps its value; [`Error::Full`], [`Error::Holds`].
    ///
    /// ```
    /// use citrus_map::{Error, StringMap};
    ///
    /// let map = StringMap::new(100, 1)?;
    /// let mut handle = map.handle()?;
    /// handle.insert("five", 5)?;
    /// let refused = handle.insert("five", 6).unwrap_err();
    /// assert_eq!((refused.cause, refused.value), (Error::Present, Some(6)));
    /// # Ok::<(), Error>(())
    /// ```
    pub fn insert(&mut self, text: impl AsRef<[u8]>, value: V) -> Result<(), Refused<V>> {
        let leaf = NewLeaf::new(text.as_ref(), value);
        match self.place(&leaf, false) {
            Ok(Placed::Added) => Ok(()),
            Ok(_) => Err(refused(Error::Present, leaf)),
            Err(cause) => Err(refused(cause, leaf)),
        }
    }

    /// Gives the string another value where it is present, waits for the readers of the one before, and gives that back.
    ///
    /// # Errors
    /// [`Error::Absent`] where the string is absent, and stays so; [`Error::Holds`].
    ///
    /// ```
    /// let map = citrus_map::StringMap::new(100, 1)?;
    /// let mut handle = map.handle()?;
    /// handle.insert("five", 5)?;
    /// assert_eq!(handle.replace("five", 6)?, 5);
    /// # Ok::<(), citrus_map::Error>(())
    /// ```
    pub fn replace(&mut self, text: impl AsRef<[u8]>, value: V) -> Result<V, Refused<V>> {
        let leaf = NewLeaf::new(text.as_ref(), value);
        match self.exchange(&leaf) {
            Ok(Some(before)) => self.outwait(before).map_err(|cause| Refused { cause, value: None }),
            Ok(None) => Err(refused(Error::Absent, leaf)),
            Err(cause) => Err(refused(cause, leaf)),
        }
    }

    /// Gives the string this value. Where it had one, waits for the readers of that and gives it back.
    ///
    /// # Errors
    /// [`Error::Full`], [`Error::Holds`].
    ///
    /// ```
    /// let map = citrus_map::StringMap::new(100, 1)?;
    /// let mut handle = map.handle()?;
    /// assert_eq!(handle.upsert("five", 5)?, None);
    /// assert_eq!(handle.upsert("five", 6)?, Some(5));
    /// # Ok::<(), citrus_map::Error>(())
    /// ```
    pub fn upsert(&mut self, text: impl AsRef<[u8]>, value: V) -> Result<Option<V>, Refused<V>> {
        let leaf = NewLeaf::new(text.as_ref(), value);
        match self.place(&leaf, true) {
            Ok(Placed::Replaced(before)) => self.outwait(before).map(Some).map_err(|cause| Refused { cause, value: None }),
            Ok(_) => Ok(None),
            Err(cause) => Err(refused(cause, leaf)),
        }
    }

    /// Gives the string this value, and says whether the pair was added. A value before is dropped by a later call of this handle, when its readers
    /// are gone: so it waits as [`retire`](StringMapHandle::retire).
    ///
    /// # Errors
    /// As [`upsert`](StringMapHandle::upsert).
    ///
    /// ```
    /// let map = citrus_map::StringMap::new(100, 1)?;
    /// let mut handle = map.handle()?;
    /// assert!(handle.put("five", 5)?);
    /// assert!(!handle.put("five", 6)?);
    /// # Ok::<(), citrus_map::Error>(())
    /// ```
    pub fn put(&mut self, text: impl AsRef<[u8]>, value: V) -> Result<bool, Refused<V>> {
        let leaf = NewLeaf::new(text.as_ref(), value);
        match self.place(&leaf, true) {
            Ok(Placed::Replaced(before)) => {
                self.retired(before);
                Ok(false)
            }
            Ok(_) => Ok(true),
            Err(cause) => Err(refused(cause, leaf)),
        }
    }

    /// Gives the string what `change` makes of its value where it is present, waits for the readers of the value before, and gives that back. It is
    /// one update. Where another thread gives the string another value meanwhile, what `change` made is dropped, and it is called once more, with
    /// that.
    ///
    /// `change` reads the value as a [`StringGuard`] does, so it is to be short and makes no update of the map.
    ///
    /// # Errors
    /// [`Error::Holds`].
    ///
    /// ```
    /// let map = citrus_map::StringMap::new(100, 1)?;
    /// let mut handle = map.handle()?;
    /// assert_eq!(handle.update("five", |value| value + 1)?, None);
    /// handle.insert("five", 5)?;
    /// assert_eq!(handle.update("five", |value| value + 1)?, Some(5));
    /// # Ok::<(), citrus_map::Error>(())
    /// ```
    pub fn update(&mut self, text: impl AsRef<[u8]>, mut change: impl FnMut(&V) -> V) -> Result<Option<V>, Error> {
        match self.decide(text.as_ref(), |value| value.map_or(Change::Leave, |value| Change::Put(change(value))))? {
            Some(before) => self.outwait(before).map(Some),
            None => Ok(None),
        }
    }

    /// Asks what is to become of the string, by its value if it has one, and does that in one update, as long as it still has that value, or none.
    /// Where another thread changed it meanwhile, what was to be put in is dropped, and `decide` is asked once more. A value before is dropped by a
    /// later call of this handle, when its readers are gone: so it waits as [`retire`](StringMapHandle::retire).
    ///
    /// `decide` reads the value as a [`StringGuard`] does, so it is to be short and makes no update of the map.
    ///
    /// # Errors
    /// [`Error::Full`], [`Error::Holds`].
    ///
    /// ```
    /// use citrus_map::{Change, StringMap};
    ///
    /// let map = StringMap::new(100, 1)?;
    /// let mut handle = map.handle()?;
    /// for _ in 0..5 {
    ///     handle.change("count", |count| Change::Put(count.map_or(1, |count| count + 1)))?;
    /// }
    /// handle.change("count", |count| if count == Some(&5) { Change::Remove } else { Change::Leave })?;
    /// assert!(!handle.contains_key("count")?);
    /// # Ok::<(), citrus_map::Error>(())
    /// ```
    pub fn change(&mut self, text: impl AsRef<[u8]>, decide: impl FnMut(Option<&V>) -> Change<V>) -> Result<(), Error> {
        if let Some(before) = self.decide(text.as_ref(), decide)? {
            self.retired(before);
        }
        Ok(())
    }

    /// Takes the pair out, where the string is present, waits for the readers of its value, and gives that.
    ///
    /// # Errors
    /// [`Error::Holds`].
    pub fn remove(&mut self, text: impl AsRef<[u8]>) -> Result<Option<V>, Error> {
        self.remove_if(text, |_| true)
    }

    /// Takes the pair out, and says whether it was there. Its value is dropped by a later call of this handle, when its readers are gone. So it
    /// doesn't wait for them, but where [`MOST_RETIRED`](crate::MOST_RETIRED) objects are still to be dropped.
    ///
    /// # Errors
    /// [`Error::Holds`].
    ///
    /// ```
    /// let map = citrus_map::StringMap::new(100, 2)?;
    /// let (mut reader, mut writer) = (map.handle()?, map.handle()?);
    /// writer.insert("five", 5)?;
    /// std::thread::scope(|scope| {
    ///     let five = reader.get("five").unwrap().unwrap();
    ///     let retired = scope.spawn(|| writer.retire("five")).join().unwrap();
    ///     assert_eq!(retired, Ok(true));
    ///     assert_eq!(*five, 5);
    /// });
    /// assert!(!reader.contains_key("five")?);
    /// writer.flush()?;
    /// # Ok::<(), citrus_map::Error>(())
    /// ```
    pub fn retire(&mut self, text: impl AsRef<[u8]>) -> Result<bool, Error> {
        self.retire_if(text, |_| true)
    }

    /// Takes the pair out as [`remove`](StringMapHandle::remove), where `goes` says yes to its value. Where another thread gives the string another
    /// value meanwhile, `goes` is asked once more, with that.
    ///
    /// `goes` reads the value as a [`StringGuard`] does, so it is to be short and makes no update of the map.
    ///
    /// # Errors
    /// As [`remove`](StringMapHandle::remove).
    ///
    /// ```
    /// let map = citrus_map::StringMap::new(100, 1)?;
    /// let mut handle = map.handle()?;
    /// handle.insert("five", 5)?;
    /// assert_eq!(handle.remove_if("five", |value| *value > 5)?, None);
    /// assert_eq!(handle.remove_if("five", |value| *value == 5)?, Some(5));
    /// # Ok::<(), citrus_map::Error>(())
    /// ```
    pub fn remove_if(&mut self, text: impl AsRef<[u8]>, goes: impl FnMut(&V) -> bool) -> Result<Option<V>, Error> {
        match self.take_while(text.as_ref(), goes)? {
            Some(leaf) => self.outwait(leaf).map(Some),
            None => Ok(None),
        }
    }

    /// Takes the pair out as [`retire`](StringMapHandle::retire), where `goes` says yes to its value, and says whether it did: as
    /// [`remove_if`](StringMapHandle::remove_if).
    ///
    /// # Errors
    /// As [`remove`](StringMapHandle::remove).
    pub fn retire_if(&mut self, text: impl AsRef<[u8]>, goes: impl FnMut(&V) -> bool) -> Result<bool, Error> {
        let gone = self.take_while(text.as_ref(), goes)?;
        let was_there = gone.is_some();
        gone.into_iter().for_each(|leaf| self.retired(leaf));
        Ok(was_there)
    }

    fn place(&mut self, leaf: &NewLeaf<V>, replaces: bool) -> Result<Placed<V>, Error> {
        self.domain.may_wait()?;
        let within = self.domain.enter(section_key(leaf.text()))?;
        self.ways.place(&within, leaf, replaces)
    }

    /// Puts the leaf in the place of its string's, if there is one, and tells that.
    fn exchange(&mut self, leaf: &NewLeaf<V>) -> Result<Option<TakenOut<V>>, Error> {
        self.domain.may_wait()?;
        let within = self.domain.enter(section_key(leaf.text()))?;
        while let Some((found, on)) = self.ways.find(&within, leaf.text())? {
            if let Some(before) = self.ways.exchange(&within, on, &found, leaf)? {
                return Ok(Some(before));
            }
        }
        Ok(None)
    }

    /// What the handle knows of itself and of its index, whose pairs are those of strings and of layers.
    pub fn stats(&self) -> Stats {
        self.ways.index.stats()
    }

    /// What was taken out or replaced, if something was: see [`change`](StringMapHandle::change).
    fn decide(&mut self, text: &[u8], mut decide: impl FnMut(Option<&V>) -> Change<V>) -> Result<Option<TakenOut<V>>, Error> {
        // Where it will be refused, nothing is asked.
        self.domain.may_wait()?;
        loop {
            let within = self.domain.enter(section_key(text))?;
            let seen = self.ways.find(&within, text)?;
            let told = match (decide(seen.as_ref().map(|(found, _)| found.value())), &seen) {
                (Change::Leave, _) | (Change::Remove, None) => return Ok(None),
                (Change::Remove, Some((found, on))) => self.ways.take(&within, *on, found)?.map(|(gone, may_be_empty)| {
                    self.kept.waiting.marks.extend(self.ways.mark_where(may_be_empty, &within, text));
                    Some(gone)
                }),
                (Change::Put(value), seen) => {
                    let leaf = NewLeaf::new(text, value);
                    let told = match seen {
                        Some((found, on)) => self.ways.exchange(&within, *on, found, &leaf).map(|before| before.map(Some)),
                        None => self.ways.place(&within, &leaf, false).map(|placed| matches!(placed, Placed::Added).then(|| None)),
                    };
                    match told {
                        Ok(None) => {
                            drop(refused(Error::Moved, leaf));
                            None
                        }
                        Ok(told) => told,
                        Err(cause) => return Err(refused(cause, leaf).cause),
                    }
                }
            };
            if let Some(before) = told {
                return Ok(before);
            }
        }
    }

    /// Takes the pair out while `goes` says yes to its value.
    fn take_while(&mut self, text: &[u8], mut goes: impl FnMut(&V) -> bool) -> Result<Option<TakenOut<V>>, Error> {
        self.decide(text, |value| if value.map_or(false, &mut goes) { Change::Remove } else { Change::Leave })
    }
}

impl<V> Drop for StringMapHandle<V> {
    fn drop(&mut self) {
        // The handle goes back after this.
        *self.ways.shared.kept(self.domain.place()) = take(&mut self.kept);
    }
}

impl<V> fmt::Debug for StringMapHandle<V> {
    fn fmt(&self, text: &mut fmt::Formatter<'_>) -> fmt::Result {
        text.debug_struct("StringMapHandle").finish_non_exhaustive()
    }
}
