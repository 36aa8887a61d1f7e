//! What the words of the index stand for: a word below 2^64 - 2^56 is a value that stays, and any other is the name of an entry here, which
//! has a value and mostly a deadline. So one word of the index says both, a get of a value that stays is one lookup as before, and a value
//! that is itself as great as a name has an entry without a deadline.
//!
//! A name is given once. It says where the entry stands and how often that place was given before. So where a key still has a name it wasn't
//! renewed, with whatever value and deadline: who takes the key out by [`take`](citrus_map::Handle::take) with a name takes no renewed one.

use crate::counts::Counts;
use citrus_map::Error;
use std::cell::RefCell;
use std::collections::VecDeque;
use std::sync::atomic::{fence, AtomicU64, AtomicUsize, Ordering::*};
use std::sync::{Arc, Mutex, MutexGuard, PoisonError};

/// The least name. Below the bits that all names have stand those of the life and of the place.
pub(crate) const FIRST_NAME: u64 = 0xff << 56;
const PLACE_BITS: u32 = 31;
/// A place is given so often, and then no more.
const LIVES: u64 = 1 << (56 - PLACE_BITS);
/// So many places come into being at once: 128 kB.
const CHUNK: usize = 4_096;
/// So many places that were given back go to where all workers take them from at once.
const BATCH: usize = 64;
/// Beside a deadline: the entry's name isn't in the index any more.
const GONE: u64 = 1 << 63;
/// In the place of a deadline.
const NEVER: u64 = 0;
/// A worker that makes no list.
const NO_LIST: u64 = u64::MAX;

/// What a key has.
#[derive(Clone, Copy, Debug, PartialEq, Eq)]
pub struct Content<V = u64> {
    /// Its value.
    pub value: V,
    /// The moment at which it goes, in milliseconds since the begin of 1970, if it is to go. From 1 to 2^63 - 1.
    pub deadline: Option<u64>,
}

impl<V> Content<V> {
    /// A value that stays.
    pub fn staying(value: V) -> Content<V> {
        Content { value, deadline: None }
    }

    /// Whether the deadline, if there is one, is after the moment that the clock tells.
    #[inline]
    pub(crate) fn is_live(&self, clock: impl FnOnce() -> u64) -> bool {
        self.deadline.map_or(true, |deadline| clock() < deadline)
    }
}

/// Whether the word stands for an entry.
#[inline]
pub(crate) fn is_name(word: u64) -> bool {
    word >= FIRST_NAME
}

fn place_of(name: u64) -> usize {
    (name & ((1 << PLACE_BITS) - 1)) as usize
}

fn life_of(name: u64) -> u64 {
    (name & !FIRST_NAME) >> PLACE_BITS
}

/// A place for an entry. Its name is 0 before the first one and while another one is written.
#[derive(Debug, Default)]
struct Entry {
    name: AtomicU64,
    key: AtomicU64,
    value: AtomicU64,
    deadline: AtomicU64,
}

impl Entry {
    /// What it has, and its key, while it has this name: whoever reads it beside one who writes it sees that the name changed.
    fn read(&self, name: u64) -> Option<(u64, Content)> {
        if self.name.load(Acquire) != name {
            return None;
        }
        let (key, value, deadline) = (self.key.load(Relaxed), self.value.load(Relaxed), self.deadline.load(Relaxed) & !GONE);
        fence(Acquire);
        let content = Content { value, deadline: (deadline != NEVER).then_some(deadline) };
        (self.name.load(Relaxed) == name).then_some((key, content))
    }

    /// Nobody else writes it, and its place is in no list that is under way.
    fn write(&self, name: u64, key: u64, content: Content) {
        self.name.store(0, Relaxed);
        fence(Release);
        self.key.store(key, Relaxed);
        self.value.store(content.value, Relaxed);
        self.deadline.store(content.deadline.unwrap_or(NEVER), Relaxed);
        self.name.store(name, Release);
    }
}

type Chunk = Arc<Vec<Entry>>;

/// Places that were given back, and when.
#[derive(Debug)]
struct Batch {
    moment: u64,
    places: Vec<usize>,
}

/// What all workers have together.
#[derive(Debug)]
struct Shared {
    chunks: Mutex<Vec<Chunk>>,
    /// How many places there are.
    size: AtomicUsize,
    /// The oldest ones first.
    batches: Mutex<VecDeque<Batch>>,
    /// How many batches were given back.
    moment: AtomicU64,
    /// For each worker the moment at which it began its list.
    lists: Vec<AtomicU64>,
    /// Where the look for deadlines goes on.
    cursor: AtomicUsize,
    /// How many entries with a deadline are in the index.
    deadlines: Counts,
}

fn locked<T>(mutex: &Mutex<T>) -> MutexGuard<'_, T> {
    mutex.lock().unwrap_or_else(PoisonError::into_inner)
}

impl Shared {
    /// Places that nobody has, and at which no list looks.
    fn take_places(&self) -> Result<Vec<usize>, Error> {
        let mut batches = locked(&self.batches);
        // A list that read a name began before the name was taken out of the index, and so before its place was given back.
        let is_free = |batch: &Batch| self.lists.iter().all(|began| began.load(SeqCst) > batch.moment);
        if batches.front().map_or(false, is_free) {
            if let Some(batch) = batches.pop_front() {
                return Ok(batch.places);
            }
        }
        self.grow()
    }

    fn grow(&self) -> Result<Vec<usize>, Error> {
        let mut chunks = locked(&self.chunks);
        let first = chunks.len() * CHUNK;
        if first + CHUNK > 1 << PLACE_BITS {
            return Err(Error::Full);
        }
        let mut chunk = Vec::new();
        chunk.try_reserve_exact(CHUNK).map_err(|_| Error::NoMemory)?;
        chunk.resize_with(CHUNK, Entry::default);
        chunks.push(Arc::new(chunk));
        self.size.store(first + CHUNK, Release);
        Ok((first..first + CHUNK).rev().collect())
    }

    fn give_back(&self, places: Vec<usize>) {
        let mut batches = locked(&self.batches);
        let moment = self.moment.fetch_add(1, SeqCst);
        batches.push_back(Batch { moment, places });
    }
}

/// One worker's way to the entries.
#[derive(Debug)]
pub(crate) struct Entries {
    shared: Arc<Shared>,
    worker: usize,
    /// As many chunks as it needed so far, so that a get takes no lock.
    chunks: RefCell<Vec<Chunk>>,
    /// Places for its next entries.
    free: RefCell<Vec<usize>>,
    /// Places that it gave back, fewer than a batch.
    given_back: RefCell<Vec<usize>>,
}

impl Entries {
    /// A way for each worker.
    pub(crate) fn all(workers: usize) -> Vec<Entries> {
        let shared = Arc::new(Shared {
            chunks: Mutex::default(),
            size: AtomicUsize::new(0),
            batches: Mutex::default(),
            moment: AtomicU64::new(0),
            lists: (0..workers).map(|_| AtomicU64::new(NO_LIST)).collect(),
            cursor: AtomicUsize::new(0),
            deadlines: Counts::new(workers),
        });
        let way = |worker| Entries {
            shared: Arc::clone(&shared),
            worker,
            chunks: RefCell::default(),
            free: RefCell::default(),
            given_back: RefCell::default(),
        };
        (0..workers).map(way).collect()
    }

    /// How many places there are: whole pieces of 4,096.
    #[inline]
    pub(crate) fn places(&self) -> usize {
        self.shared.size.load(Relaxed)
    }

    /// Whether there ever was an entry.
    #[inline]
    pub(crate) fn are_any(&self) -> bool {
        self.places() > 0
    }

    /// How many keys have a deadline.
    pub(crate) fn deadlines(&self) -> u64 {
        self.shared.deadlines.sum()
    }

    fn with<A>(&self, place: usize, look: impl FnOnce(&Entry) -> A) -> A {
        let mut chunks = self.chunks.borrow_mut();
        if place / CHUNK >= chunks.len() {
            let (all, known) = (locked(&self.shared.chunks), chunks.len());
            chunks.extend(all[known..].iter().map(Arc::clone));
        }
        look(&chunks[place / CHUNK][place % CHUNK])
    }

    /// The word by which the index says that the key has this. Where it is a name the caller puts it into the index or gives it back.
    ///
    /// # Errors
    /// [`Error::NoMemory`], and [`Error::Full`] where there are 2^31 entries.
    #[inline]
    pub(crate) fn word(&self, key: u64, content: Content) -> Result<u64, Error> {
        match content {
            Content { value, deadline: None } if !is_name(value) => Ok(value),
            _ => self.new_name(key, content),
        }
    }

    fn new_name(&self, key: u64, content: Content) -> Result<u64, Error> {
        let place = self.free_place()?;
        self.count(content, 1);
        Ok(self.with(place, |entry| {
            let before = entry.name.load(Relaxed);
            let life = if before == 0 { 0 } else { life_of(before) + 1 };
            let name = FIRST_NAME | life << PLACE_BITS | place as u64;
            entry.write(name, key, content);
            name
        }))
    }

    fn free_place(&self) -> Result<usize, Error> {
        let mut free = self.free.borrow_mut();
        if free.is_empty() {
            *free = self.shared.take_places()?;
        }
        free.pop().ok_or(Error::Full)
    }

    fn count(&self, content: Content, by: i64) {
        if content.deadline.is_some() {
            self.shared.deadlines.add(self.worker, by);
        }
    }

    /// What a word of the index stands for. None where it is the name of an entry whose place was given to another one: by then the index
    /// hasn't that word.
    #[inline]
    pub(crate) fn content(&self, word: u64) -> Option<Content> {
        if is_name(word) {
            self.with(place_of(word), |entry| entry.read(word)).map(|(_, content)| content)
        } else {
            Some(Content::staying(word))
        }
    }

    /// Gives up a word that the caller took out of the index, or didn't put in, and tells what it stood for. Lists that are under way read it
    /// as before.
    #[inline]
    pub(crate) fn give_back(&self, word: u64) -> Content {
        if is_name(word) {
            self.end(word)
        } else {
            Content::staying(word)
        }
    }

    fn end(&self, name: u64) -> Content {
        let place = place_of(name);
        let content = self.with(place, |entry| {
            let content = entry.read(name).map(|(_, content)| content);
            entry.deadline.fetch_or(GONE, Relaxed);
            content.expect("nobody else gives up a name that was taken out here")
        });
        self.count(content, -1);
        if life_of(name) + 1 < LIVES {
            let mut places = self.given_back.borrow_mut();
            places.push(place);
            if places.len() >= BATCH {
                self.shared.give_back(places.split_off(0));
            }
        }
        content
    }

    /// While the list is there, each name that the index has from here on can be read.
    pub(crate) fn list(&self) -> List<'_> {
        let began = &self.shared.lists[self.worker];
        began.store(self.shared.moment.load(SeqCst), SeqCst);
        fence(SeqCst);
        List { began }
    }

    /// Looks at the next places, this many at most, and tells the keys and names of those whose deadline is no later than this moment. Workers
    /// share the round, and each place has its turn.
    pub(crate) fn due(&self, places: usize, now: u64) -> Vec<(u64, u64)> {
        let size = self.shared.size.load(Acquire);
        let count = places.min(size);
        let from = self.shared.cursor.fetch_add(count, Relaxed);
        (from..from + count).filter_map(|turn| self.with(turn % size, |entry| due_of(entry, now))).collect()
    }
}

/// The key and the name, where the deadline is no later than this moment.
fn due_of(entry: &Entry, now: u64) -> Option<(u64, u64)> {
    // Behind a deadline that is gone this is above each moment.
    let deadline = entry.deadline.load(Relaxed);
    if deadline == NEVER || deadline > now {
        return None;
    }
    let name = entry.name.load(Acquire);
    entry.read(name).filter(|(_, content)| name != 0 && !content.is_live(|| now)).map(|(key, _)| (key, name))
}

/// A list that a worker makes: see [`Entries::list`].
pub(crate) struct List<'e> {
    began: &'e AtomicU64,
}

impl Drop for List<'_> {
    fn drop(&mut self) {
        self.began.store(NO_LIST, Release);
    }
}

#[cfg(test)]
mod tests {
    use super::*;

    fn until(value: u64, deadline: u64) -> Content {
        Content { value, deadline: Some(deadline) }
    }

    fn one() -> Entries {
        Entries::all(1).remove(0)
    }

    #[test]
    fn values_that_stay_are_their_own_words() {
        let entries = one();
        for value in [0, 5, FIRST_NAME - 1] {
            assert_eq!(entries.word(7, Content::staying(value)), Ok(value));
            assert_eq!(entries.content(value), Some(Content::staying(value)));
            assert_eq!(entries.give_back(value), Content::staying(value));
        }
        assert!(!entries.are_any());
    }

    #[test]
    fn values_as_great_as_names_and_deadlines_have_entries() {
        let entries = one();
        let contents = [Content::staying(FIRST_NAME), Content::staying(u64::MAX), until(5, 1), until(u64::MAX, (1 << 63) - 1)];
        let words: Vec<u64> = contents.iter().map(|content| entries.word(7, *content).expect("there is memory")).collect();
        assert!(words.iter().all(|word| is_name(*word)));
        assert_eq!(entries.deadlines(), 2);
        for (word, content) in words.iter().zip(contents) {
            assert_eq!(entries.content(*word), Some(content));
            assert_eq!(entries.give_back(*word), content);
        }
        assert_eq!(entries.deadlines(), 0);
    }

    #[test]
    fn no_name_is_given_twice() {
        let entries = one();
        let mut names = std::collections::HashSet::new();
        for round in 0..100_000 {
            let name = entries.word(7, until(5, 9)).expect("there is memory");
            assert!(names.insert(name), "round {round}");
            entries.give_back(name);
        }
        assert!(entries.shared.size.load(Relaxed) <= 2 * CHUNK, "places are used again");
        assert!(names.iter().filter(|name| entries.content(**name).is_some()).count() <= 2 * CHUNK);
    }

    #[test]
    fn a_place_is_given_as_often_as_its_names_last() {
        let entries = one();
        let name = entries.word(7, until(5, 9)).expect("there is memory");
        let last = name | (LIVES - 1) << PLACE_BITS;
        entries.with(place_of(name), |entry| entry.write(last, 7, until(5, 9)));
        assert_eq!(life_of(last), LIVES - 1);
        entries.give_back(last);
        assert!(entries.given_back.borrow().is_empty());
    }

    #[test]
    fn a_list_reads_what_is_given_back_behind_its_begin() {
        let ways = Entries::all(2);
        let name = ways[0].word(7, until(5, 9)).expect("there is memory");
        let list = ways[1].list();
        ways[0].give_back(name);
        for _ in 0..100_000 {
            let other = ways[0].word(8, until(6, 9)).expect("there is memory");
            ways[0].give_back(other);
        }
        assert_eq!(ways[1].content(name), Some(until(5, 9)));
        drop(list);
        for _ in 0..200_000 {
            let other = ways[0].word(8, until(6, 9)).expect("there is memory");
            ways[0].give_back(other);
        }
        assert_eq!(ways[1].content(name), None);
    }

    #[test]
    fn an_entry_is_read_as_it_was_under_its_name() {
        let (entry, is_over) = (Entry::default(), AtomicUsize::new(0));
        let read = || {
            let (mut count, mut name) = (0, 1);
            while is_over.load(Relaxed) == 0 {
                name = entry.name.load(Relaxed).max(name);
                if let Some((key, content)) = entry.read(name) {
                    assert_eq!((key, content), (name + 1, until(name + 2, name + 3)));
                    count += 1;
                }
            }
            count
        };
        std::thread::scope(|scope| {
            let readers = [scope.spawn(read), scope.spawn(read)];
            let begin = std::time::Instant::now();
            let names = (1..).take_while(|_| begin.elapsed().as_millis() < 300);
            names.for_each(|name| entry.write(name, name + 1, until(name + 2, name + 3)));
            is_over.store(1, Relaxed);
            let counts = readers.map(|reader| reader.join().expect("it read what was written"));
            assert!(counts.iter().any(|count| *count > 0), "{counts:?}");
        });
    }

    #[test]
    fn what_is_due_is_found_in_one_round() {
        let entries = one();
        assert_eq!(entries.due(100, 50), []);
        let names: Vec<u64> = (0..10).map(|key| entries.word(key, until(5, 10 * key + 1)).expect("there is memory")).collect();
        entries.give_back(names[2]);
        let mut due: Vec<(u64, u64)> = (0..8).flat_map(|_| entries.due(CHUNK / 8, 41)).collect();
        due.sort_unstable();
        assert_eq!(due, [0, 1, 3, 4].map(|key| (key, names[key as usize])));
    }
}
