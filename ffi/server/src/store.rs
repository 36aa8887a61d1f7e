//! What a worker does with the index: by a handle of its own, with a count of the pairs and with the entries of keys that are to go.
//!
//! A key whose deadline is over counts as absent. Who meets it takes it out, and the worker looks for others now and then. It is taken out while
//! the index has the name of that very entry alone, so no key that was renewed meanwhile goes with it.

use crate::census::Census;
use crate::clock;
use crate::commands::Range;
use crate::counts::Counts;
use crate::entries::{is_name, Content, Entries};
use crate::pairs::{Facts, Keeper, Outcome, Page, Pairs, Scanned};
use crate::parser::Request;
use crate::replies::Replies;
use crate::requests::do_request;
use crate::session::Session;
use citrus_map::{Error, Handle, Index, Lanes};
use std::cell::RefCell;
use std::iter::from_fn;
use std::sync::Arc;

/// So many pairs are taken out at a time where all are.
const CLEARED_AT_ONCE: usize = 256;
/// So many places for entries a worker looks at, at a time, for keys that are to go: less than a millisecond, in pieces.
const SWEPT_AT_ONCE: usize = 16_384;
const PIECE: usize = 256;
/// Where it found so many keys it stops, since connections wait, and goes on when they had their turn.
const MANY: usize = 256;

/// Why a number isn't counted up or down. Nothing was changed then.
#[derive(Clone, Copy, Debug, PartialEq, Eq)]
pub enum Uncounted {
    /// Its value is above 2^63 - 1, which is no integer of the protocol.
    TooLarge,
    /// It would be below 0 or above 2^63 - 1 then.
    Overflow,
    /// The index has no answer.
    Index(Error),
}

impl From<Error> for Uncounted {
    fn from(error: Error) -> Uncounted {
        Uncounted::Index(error)
    }
}

/// What is done with a key that was looked at: see [`Store::change`].
#[derive(Clone, Copy, Debug, PartialEq, Eq)]
pub enum Step<V = u64> {
    /// It stays as it is.
    Leave,
    /// It has this from now on.
    Put(Content<V>),
    /// It is taken out, if it is there.
    Remove,
}

/// What a key has, and the word of the index that says so.
#[derive(Clone, Copy, Debug)]
struct Found {
    word: u64,
    content: Content,
}

/// A worker's handle, its lanes, its way to the entries, and its part of the counts.
#[derive(Debug)]
pub struct Store {
    handle: Handle,
    /// Where the index has some for this worker.
    lanes: Option<RefCell<Lanes>>,
    entries: Entries,
    /// How many pairs each worker put in, less those that it took out. The library doesn't count.
    sizes: Arc<Counts>,
    /// How many keys each took out since their deadline was over.
    expired: Arc<Counts>,
    worker: usize,
}

impl Store {
    /// One for each handle of the index that nobody has, each with lanes as far as there are some. Nobody else may update the index, and each of
    /// its values is below 2^64 - 2^56.
    ///
    /// # Errors
    /// Where the pairs that are there already can't be counted.
    pub fn all(index: &Index) -> Result<Vec<Store>, Error> {
        let handles: Vec<Handle> = from_fn(|| index.handle().ok()).collect();
        let there = handles.first().map_or(Ok(0), Handle::len)?;
        let (sizes, expired) = (Arc::new(Counts::new(handles.len())), Arc::new(Counts::new(handles.len())));
        if !handles.is_empty() {
            sizes.add(0, i64::try_from(there).unwrap_or(i64::MAX));
        }
        let entries = Entries::all(handles.len());
        let store = |(worker, (handle, entries))| {
            let lanes = index.lanes().ok().map(RefCell::new);
            Store { handle, lanes, entries, sizes: Arc::clone(&sizes), expired: Arc::clone(&expired), worker }
        };
        Ok(handles.into_iter().zip(entries).enumerate().map(store).collect())
    }

    fn grew(&self, by: i64) {
        self.sizes.add(self.worker, by);
    }

    /// How many pairs there are: a sum of one number for each worker. Keys whose deadline is over count until they are taken out.
    pub fn size(&self) -> u64 {
        self.sizes.sum()
    }

    /// How many keys have a deadline, and how many were taken out since theirs was over.
    pub fn deadlines(&self) -> (u64, u64) {
        (self.entries.deadlines(), self.expired.sum())
    }

    /// The key's value.
    ///
    /// # Errors
    /// As [`Handle::get`].
    #[inline]
    pub fn get(&self, key: u64) -> Result<Option<u64>, Error> {
        self.value_of(key, self.handle.get(key)?)
    }

    /// The value for which a word of the key stands, which the index had at a moment of this call.
    #[inline]
    fn value_of(&self, key: u64, word: Option<u64>) -> Result<Option<u64>, Error> {
        match word {
            Some(word) if is_name(word) => Ok(self.settle(key, word)?.map(|found| found.content.value)),
            plain => Ok(plain),
        }
    }

    /// What the key has: its value, and its deadline if it has one.
    ///
    /// # Errors
    /// As [`Handle::get`].
    pub fn content(&self, key: u64) -> Result<Option<Content>, Error> {
        Ok(self.find(key)?.map(|found| found.content))
    }

    fn find(&self, key: u64) -> Result<Option<Found>, Error> {
        match self.handle.get(key)? {
            Some(word) => self.settle(key, word),
            None => Ok(None),
        }
    }

    /// What the key has, where the index had this word for it. The clock is read behind the word. So where a deadline is over, the key was
    /// absent at that moment if it still has the word then: that is known where it is taken out.
    fn settle(&self, key: u64, mut word: u64) -> Result<Option<Found>, Error> {
        loop {
            let next = match self.entries.content(word) {
                Some(content) if content.is_live(clock::now) => return Ok(Some(Found { word, content })),
                Some(_) => match self.take(key, word)? {
                    Ok(_) => {
                        self.expired.add(self.worker, 1);
                        return Ok(None);
                    }
                    Err(other) => other,
                },
                // The key was given another one.
                None => self.handle.get(key)?,
            };
            match next {
                Some(next) => word = next,
                None => return Ok(None),
            }
        }
    }

    /// The value of each key, at its index. Lanes look several up beside each other; without any it is one after another.
    ///
    /// # Errors
    /// As [`Lanes::get_many`] and [`Handle::get`].
    pub fn get_many(&self, keys: &[u64]) -> Result<Vec<Option<u64>>, Error> {
        match &self.lanes {
            Some(lanes) if keys.len() > 1 => {
                let words = lanes.borrow_mut().get_many(keys)?;
                keys.iter().zip(words).map(|(key, word)| self.value_of(*key, word)).collect()
            }
            _ => keys.iter().map(|key| self.get(*key)).collect(),
        }
    }

    /// Gives the key this, and tells the value before.
    ///
    /// # Errors
    /// As [`Handle::upsert`]; [`Error::NoMemory`] where it takes an entry.
    pub fn set(&self, key: u64, content: Content) -> Result<Option<u64>, Error> {
        let word = self.entries.word(key, content)?;
        match self.handle.upsert(key, word) {
            Ok(Some(before)) => Ok(self.live_value(before)),
            Ok(None) => {
                self.grew(1);
                Ok(None)
            }
            Err(error) => Err(self.not_put(word, error)),
        }
    }

    /// Gives up a word that was taken out of the index here, and tells its value where no deadline of it is over.
    #[inline]
    fn live_value(&self, word: u64) -> Option<u64> {
        let content = self.entries.give_back(word);
        content.is_live(clock::now).then_some(content.value)
    }

    /// Gives up a word that couldn't be put in. A call that was lost may have put it in.
    fn not_put(&self, word: u64, error: Error) -> Error {
        if error != Error::Lost {
            self.entries.give_back(word);
        }
        error
    }

    /// Gives the key this value where it is absent, and says whether it was.
    ///
    /// # Errors
    /// As [`Handle::insert`]; [`Error::NoMemory`] where it takes an entry.
    pub fn set_if_absent(&self, key: u64, value: u64) -> Result<bool, Error> {
        if self.entries.are_any() || is_name(value) {
            return self.change(key, |found| match found {
                None => (Step::Put(Content::staying(value)), true),
                Some(_) => (Step::Leave, false),
            });
        }
        self.insert(key, Content::staying(value))
    }

    fn insert(&self, key: u64, content: Content) -> Result<bool, Error> {
        let word = self.entries.word(key, content)?;
        match self.handle.insert(key, word) {
            Ok(true) => {
                self.grew(1);
                Ok(true)
            }
            Ok(false) => {
                self.entries.give_back(word);
                Ok(false)
            }
            Err(error) => Err(self.not_put(word, error)),
        }
    }

    /// Gives the key this where the index still has that word for it, and says whether it had.
    fn replace(&self, key: u64, word: u64, content: Content) -> Result<bool, Error> {
        let new = self.entries.word(key, content)?;
        match self.handle.compare_exchange(key, word, new) {
            Ok(Ok(_)) => {
                self.entries.give_back(word);
                Ok(true)
            }
            Ok(Err(_)) => {
                self.entries.give_back(new);
                Ok(false)
            }
            Err(error) => Err(self.not_put(new, error)),
        }
    }

    /// Takes the key out where the index still has that word for it; else it tells the word of the key, if it has one.
    fn take(&self, key: u64, word: u64) -> Result<Result<Content, Option<u64>>, Error> {
        match self.handle.take(key, word)? {
            Ok(word) => {
                self.grew(-1);
                Ok(Ok(self.entries.give_back(word)))
            }
            Err(other) => Ok(Err(other)),
        }
    }

    /// Takes the pair out, and tells its value.
    ///
    /// # Errors
    /// As [`Handle::remove`].
    pub fn remove(&self, key: u64) -> Result<Option<u64>, Error> {
        match self.handle.remove(key)? {
            Some(word) => {
                self.grew(-1);
                Ok(self.live_value(word))
            }
            None => Ok(None),
        }
    }

    /// Does with the key what `change` says to what it has, and tells the answer beside that. It is one update: where another worker gives the
    /// key something else meanwhile, `change` is asked once more, with that.
    ///
    /// # Errors
    /// As [`Handle::insert`]; [`Error::NoMemory`] where it takes an entry.
    pub fn change<A>(&self, key: u64, mut change: impl FnMut(Option<Content>) -> (Step, A)) -> Result<A, Error> {
        loop {
            let found = self.find(key)?;
            let (step, answer) = change(found.map(|found| found.content));
            let is_done = match (step, found) {
                (Step::Leave, _) | (Step::Remove, None) => true,
                (Step::Put(content), None) => self.insert(key, content)?,
                (Step::Put(content), Some(Found { word, .. })) => self.replace(key, word, content)?,
                (Step::Remove, Some(Found { word, .. })) => self.take(key, word)?.is_ok(),
            };
            if is_done {
                return Ok(answer);
            }
        }
    }

    /// The first pairs with keys from `low` to `high` as they were at one moment, keys ascending, and the key behind them. Those whose deadline
    /// was over when the call began are left out, so there may be fewer than the limit before that key.
    ///
    /// # Errors
    /// As [`Handle::page`].
    pub fn page(&self, low: u64, high: u64, limit: usize) -> Result<citrus_map::Page, Error> {
        let _list = self.entries.list();
        let begin = clock::now();
        let mut page = self.handle.page(low..=high, limit)?;
        page.pairs.retain_mut(|(_, word)| {
            let content = self.entries.content(*word).expect("an entry stays while it is listed");
            *word = content.value;
            content.is_live(|| begin)
        });
        Ok(page)
    }

    /// The last pairs with keys from `low` to `high`, keys descending, and the key behind them. Each is found by a search of its own, and is
    /// the last one below the one before at a moment of its own.
    ///
    /// # Errors
    /// As [`Handle::last_to`].
    pub fn page_down(&self, low: u64, high: u64, limit: usize) -> Result<citrus_map::Page, Error> {
        let mut pairs = Vec::new();
        let mut from = Some(high);
        while let Some((key, value)) = self.last(low, from)? {
            if pairs.len() == limit {
                return Ok(citrus_map::Page { pairs, next: Some(key) });
            }
            pairs.push((key, value));
            from = key.checked_sub(1);
        }
        Ok(citrus_map::Page { pairs, next: None })
    }

    fn last(&self, low: u64, mut high: Option<u64>) -> Result<Option<(u64, u64)>, Error> {
        while let Some(from) = high {
            let (key, word) = match self.handle.last_to(from)?.filter(|(key, _)| *key >= low) {
                Some(pair) => pair,
                None => break,
            };
            if let Some(value) = self.value_of(key, Some(word))? {
                return Ok(Some((key, value)));
            }
            high = key.checked_sub(1);
        }
        Ok(None)
    }

    /// Takes out the first pairs with keys from `low` on, and tells the key to go on from where some may be left.
    ///
    /// # Errors
    /// As [`Handle::page`] and [`Handle::remove`].
    pub fn clear_some(&self, low: u64) -> Result<Option<u64>, Error> {
        let page = self.handle.page(low.., CLEARED_AT_ONCE)?;
        for (key, _) in page.pairs {
            self.remove(key)?;
        }
        Ok(page.next)
    }

    /// Whether there may be keys with a deadline, so that [`expire_some`](Store::expire_some) is to be called now and then.
    pub fn may_expire(&self) -> bool {
        self.entries.are_any()
    }

    /// Takes some of the keys out whose deadline is over, and says whether there are probably more.
    ///
    /// # Errors
    /// As [`Handle::take`].
    pub fn expire_some(&self) -> Result<bool, Error> {
        let now = clock::now();
        let mut found = 0;
        for _ in 0..self.entries.places().min(SWEPT_AT_ONCE) / PIECE {
            for (key, name) in self.entries.due(PIECE, now) {
                if self.take(key, name)?.is_ok() {
                    self.expired.add(self.worker, 1);
                }
                found += 1;
            }
            if found >= MANY {
                return Ok(true);
            }
        }
        Ok(false)
    }
}

impl Keeper for Store {
    type Place = u64;

    fn facts(&self) -> Facts {
        Facts { worker: self.worker, stats: self.handle.stats(), size: self.size(), deadlines: self.deadlines() }
    }

    fn worker(&self) -> usize {
        self.worker
    }

    fn clear_some(&self, from: u64) -> Result<Option<u64>, Error> {
        Store::clear_some(self, from)
    }

    fn may_expire(&self) -> bool {
        Store::may_expire(self)
    }

    fn expire_some(&self) -> Result<bool, Error> {
        Store::expire_some(self)
    }

    fn do_request(&self, request: &Request, session: &mut Session, census: &Census, replies: &mut Replies) -> Outcome<u64> {
        do_request::<u64, Store>(request, self, session, census, replies)
    }
}

impl<'k> Pairs<'k, u64> for Store {
    type Listed = u64;

    fn get(&self, key: u64) -> Result<Option<u64>, Error> {
        Store::get(self, key)
    }

    fn get_many(&self, keys: &[u64]) -> Result<Vec<Option<u64>>, Error> {
        Store::get_many(self, keys)
    }

    fn content(&self, key: u64) -> Result<Option<Content>, Error> {
        Store::content(self, key)
    }

    fn set(&self, key: u64, content: Content) -> Result<Option<u64>, Error> {
        Store::set(self, key, content)
    }

    fn set_if_absent(&self, key: u64, value: u64) -> Result<bool, Error> {
        Store::set_if_absent(self, key, value)
    }

    fn remove(&self, key: u64) -> Result<Option<u64>, Error> {
        Store::remove(self, key)
    }

    fn change<A>(&self, key: u64, change: impl FnMut(Option<Content>) -> (Step, A)) -> Result<A, Error> {
        Store::change(self, key, change)
    }

    fn page(&self, range: Range<u64>) -> Result<Page<u64, u64>, Error> {
        let Range { low, high, limit, is_down } = range;
        let page = if is_down { self.page_down(low, high, limit) } else { Store::page(self, low, high, limit) }?;
        Ok(Page { pairs: page.pairs, next: page.next })
    }

    fn scan(&self, cursor: u64, count: usize, _: Option<&[u8]>) -> Result<Option<Scanned>, Error> {
        let page = Store::page(self, cursor, u64::MAX, count)?;
        let keys = page.pairs.into_iter().map(|(key, _)| key.to_string().into_bytes()).collect();
        Ok(Some(Scanned { keys, next: page.next.unwrap_or(0) }))
    }
}

#[cfg(test)]
mod tests {
    use super::*;
    use std::thread;

    fn stores(workers: u32) -> Vec<Store> {
        Store::all(&Index::new(10_000, workers).expect("there is memory")).expect("an empty index is counted")
    }

    #[test]
    fn lanes_and_lookups_one_by_one_tell_the_same() {
        let index = Index::builder(1_000, 2).lanes(1).build().expect("there is memory");
        let stores = Store::all(&index).expect("an empty index is counted");
        assert_eq!(stores.iter().map(|store| store.lanes.is_some()).collect::<Vec<_>>(), [true, false]);
        for key in 0..500 {
            assert_eq!(stores[0].set(2 * key, Content::staying(key)), Ok(None));
        }
        for count in [0, 1, 2, 7, 8, 9, 1_000] {
            let keys: Vec<u64> = (0..count).map(|at| at * 7 % 1_000).collect();
            let values: Vec<_> = keys.iter().map(|key| (key % 2 == 0).then(|| key / 2)).collect();
            for store in &stores {
                assert_eq!(store.get_many(&keys), Ok(values.clone()));
            }
        }
    }

    #[test]
    fn what_workers_add_at_once_is_added_up() {
        let adding = |store: Store| {
            (0..2_000).for_each(|_| assert!(store.add(7, 3).is_ok()));
            store
        };
        let threads: Vec<_> = stores(4).into_iter().map(|store| thread::spawn(move || adding(store))).collect();
        let stores: Vec<Store> = threads.into_iter().map(|thread| thread.join().expect("no addition fails")).collect();
        assert_eq!(stores[0].get(7), Ok(Some(24_000)));
        assert_eq!(stores[0].size(), 1);
    }

    /// A thread that stood between its look at the index and its look at the entry or at the clock.
    #[test]
    fn a_word_of_a_key_that_was_renewed_since_is_no_answer() {
        const FAR: u64 = u64::MAX >> 1;
        let store = stores(1).remove(0);
        let set = |value, deadline| {
            store.set(7, Content { value, deadline }).expect("it fits");
            store.handle.get(7).expect("it is no end").expect("it was put in")
        };
        let over = set(1, Some(1));
        for (value, deadline) in [(1, Some(FAR)), (1, None), (2, Some(FAR))] {
            set(value, deadline);
            assert_eq!(store.value_of(7, Some(over)), Ok(Some(value)));
        }
        let old = set(3, Some(FAR));
        (0..20_000).for_each(|value| assert!(is_name(set(value, Some(FAR)))));
        assert_eq!(store.entries.content(old), None);
        assert_eq!(store.value_of(7, Some(old)), Ok(Some(19_999)));
        assert_eq!(store.remove(7), Ok(Some(19_999)));
        assert_eq!((store.value_of(7, Some(old)), store.value_of(7, Some(over))), (Ok(None), Ok(None)));
        assert_eq!((store.size(), store.deadlines()), (0, (0, 0)));
    }

    #[test]
    fn the_size_follows_every_kind_of_update() {
        let stores = stores(2);
        let (one, other) = (&stores[0], &stores[1]);
        for key in 0..1_000 {
            assert_eq!(one.set(key, Content::staying(key)), Ok(None));
        }
        assert_eq!(other.set(5, Content::staying(6)), Ok(Some(5)));
        assert_eq!(other.set_if_absent(5, 7), Ok(false));
        assert_eq!(other.set_if_absent(1_000, 7), Ok(true));
        assert_eq!(other.add(1_001, 7), Ok(7));
        assert_eq!(other.add(1_001, 7), Ok(14));
        assert_eq!((one.size(), other.size()), (1_002, 1_002));
        assert_eq!(other.remove(5), Ok(Some(6)));
        assert_eq!(other.remove(5), Ok(None));
        assert_eq!(one.size(), 1_001);
        let mut low = Some(0);
        while let Some(from) = low {
            low = other.clear_some(from).expect("there is memory");
        }
        assert_eq!((one.size(), other.size()), (0, 0));
        assert_eq!(one.page(0, u64::MAX, 1), Ok(citrus_map::Page { pairs: vec![], next: None }));
    }
}
