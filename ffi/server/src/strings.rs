//! What a worker does with keys and values of any bytes: by a handle of a string map, whose values have their deadlines beside them. So both change
//! by one update, and a key whose deadline is over is taken out by one that looks.

use crate::census::Census;
use crate::clock;
use crate::commands::Range;
use crate::counts::Counts;
use crate::cursors::Cursors;
use crate::entries::Content;
use crate::glob::literal_prefix;
use crate::keys::End;
use crate::pairs::{Facts, Keeper, Outcome, Page, Pairs, Scanned};
use crate::parser::Request;
use crate::replies::Replies;
use crate::requests::do_request;
use crate::session::Session;
use crate::store::Step;
use citrus_map::{Builder, Change, Error, Prefix, StringMap, StringMapHandle, StringRange};
use std::cell::RefCell;
use std::iter::from_fn;
use std::ops::Bound;
use std::sync::{Arc, Mutex, MutexGuard, PoisonError, TryLockError};

/// So many pairs are taken out at a time where all are.
const CLEARED_AT_ONCE: usize = 256;
/// So many pairs a worker looks at, at a time, for keys that are to go: some milliseconds, in pieces.
const SWEPT_AT_ONCE: usize = 16_384;
const PIECE: usize = 256;
/// Where it found so many keys it stops, since connections wait, and goes on when they had their turn.
const MANY: usize = 256;

type Value = Arc<[u8]>;

/// What all workers have together.
#[derive(Debug)]
struct Shared {
    /// How many pairs each worker put in, less those that it took out.
    sizes: Counts,
    /// How many of these have a deadline.
    deadlines: Counts,
    /// How many keys each took out since their deadline was over.
    expired: Counts,
    cursors: Mutex<Cursors>,
    /// Where the look for deadlines goes on.
    sweep: Mutex<Vec<u8>>,
}

fn locked<T>(mutex: &Mutex<T>) -> MutexGuard<'_, T> {
    mutex.lock().unwrap_or_else(PoisonError::into_inner)
}

/// A worker's handle, and its part of the counts.
#[derive(Debug)]
pub(crate) struct StringStore {
    handle: RefCell<StringMapHandle<Content<Value>>>,
    shared: Arc<Shared>,
    worker: usize,
}

/// What an update does to the counts.
struct Effect {
    /// Whether the key was there, and if so whether it had a deadline.
    had: Option<bool>,
    /// The same of it now.
    has: Option<bool>,
    /// Whether its deadline was over.
    was_over: bool,
}

/// The string behind this one.
fn next_above(text: &[u8]) -> Vec<u8> {
    [text, &[0]].concat()
}

impl StringStore {
    /// One for each handle of a new map.
    ///
    /// # Errors
    /// As [`StringMap::build`].
    pub(crate) fn all(builder: Builder) -> Result<Vec<StringStore>, Error> {
        let map = StringMap::build(builder)?;
        let handles: Vec<StringMapHandle<_>> = from_fn(|| map.handle().ok()).collect();
        let counts = || Counts::new(handles.len());
        let shared = Arc::new(Shared {
            sizes: counts(),
            deadlines: counts(),
            expired: counts(),
            cursors: Mutex::default(),
            sweep: Mutex::default(),
        });
        let store = |(worker, handle)| StringStore { handle: RefCell::new(handle), shared: Arc::clone(&shared), worker };
        Ok(handles.into_iter().enumerate().map(store).collect())
    }

    fn count(&self, Effect { had, has, was_over }: Effect) {
        let by = |before: bool, after: bool| i64::from(after) - i64::from(before);
        for (counts, by) in [
            (&self.shared.sizes, by(had.is_some(), has.is_some())),
            (&self.shared.deadlines, by(had == Some(true), has == Some(true))),
            (&self.shared.expired, i64::from(was_over)),
        ] {
            if by != 0 {
                counts.add(self.worker, by);
            }
        }
    }

    /// Takes the key out if its deadline is over.
    fn let_go(&self, key: &[u8]) -> Result<(), Error> {
        self.change(key, |_| (Step::Leave, ()))
    }

    /// Visits the first pairs of a range, this many at most, and tells where to go on if there may be more.
    fn visit(&self, keys: impl StringRange, most: usize, mut act: impl FnMut(&[u8], &Content<Value>)) -> Result<Option<Vec<u8>>, Error> {
        let (mut count, mut next) = (0, None);
        self.handle.borrow_mut().for_first(keys, most, |key, content| {
            count += 1;
            if count == most {
                next = Some(next_above(key));
            }
            act(key, content);
        })?;
        Ok(next)
    }

    /// Takes keys of a few pairs out whose deadline is over, and tells how many these were. None where another worker looks, or the end was reached.
    fn expire_few(&self, now: u64) -> Result<Option<usize>, Error> {
        let mut due = Vec::new();
        let is_through = {
            let mut from = match self.shared.sweep.try_lock() {
                Ok(from) => from,
                Err(TryLockError::Poisoned(from)) => from.into_inner(),
                Err(TryLockError::WouldBlock) => return Ok(None),
            };
            let next = self.visit(&from[..].., PIECE, |key, content| {
                if !content.is_live(|| now) {
                    due.push(key.to_vec());
                }
            })?;
            let is_through = next.is_none();
            *from = next.unwrap_or_default();
            is_through
        };
        due.iter().try_for_each(|key| self.let_go(key))?;
        Ok(if is_through { None } else { Some(due.len()) })
    }
}

impl Keeper for StringStore {
    type Place = Vec<u8>;

    fn worker(&self) -> usize {
        self.worker
    }

    fn facts(&self) -> Facts {
        let Shared { sizes, deadlines, expired, .. } = &*self.shared;
        Facts { worker: self.worker, stats: self.handle.borrow().stats(), size: sizes.sum(), deadlines: (deadlines.sum(), expired.sum()) }
    }

    fn clear_some(&self, from: Vec<u8>) -> Result<Option<Vec<u8>>, Error> {
        let mut keys = Vec::with_capacity(CLEARED_AT_ONCE);
        let next = self.visit(&from[..].., CLEARED_AT_ONCE, |key, _| keys.push(key.to_vec()))?;
        keys.iter().try_for_each(|key| self.change(key, |_| (Step::Remove, ())))?;
        Ok(next)
    }

    fn may_expire(&self) -> bool {
        self.shared.deadlines.sum() > 0
    }

    fn expire_some(&self) -> Result<bool, Error> {
        let (now, mut found) = (clock::now(), 0);
        for _ in 0..SWEPT_AT_ONCE / PIECE {
            match self.expire_few(now)? {
                Some(few) => found += few,
                None => return Ok(false),
            }
            if found >= MANY {
                return Ok(true);
            }
        }
        Ok(false)
    }

    fn do_request(&self, request: &Request, session: &mut Session, census: &Census, replies: &mut Replies) -> Outcome<Vec<u8>> {
        do_request::<&[u8], StringStore>(request, self, session, census, replies)
    }
}

impl<'k> Pairs<'k, &'k [u8]> for StringStore {
    type Listed = Vec<u8>;

    fn get(&self, key: &[u8]) -> Result<Option<Value>, Error> {
        if let Some(content) = self.handle.borrow_mut().get(key)? {
            if content.is_live(clock::now) {
                return Ok(Some(Arc::clone(&content.value)));
            }
        } else {
            return Ok(None);
        }
        Ok(self.content(key)?.map(|content| content.value))
    }

    fn content(&self, key: &[u8]) -> Result<Option<Content<Value>>, Error> {
        self.change(key, |found| (Step::Leave, found))
    }

    fn set(&self, key: &[u8], content: Content<Value>) -> Result<Option<Value>, Error> {
        self.change(key, |found| (Step::Put(content.clone()), found.map(|content| content.value)))
    }

    fn remove(&self, key: &[u8]) -> Result<Option<Value>, Error> {
        self.change(key, |found| (Step::Remove, found.map(|content| content.value)))
    }

    fn change<A>(&self, key: &[u8], mut change: impl FnMut(Option<Content<Value>>) -> (Step<Value>, A)) -> Result<A, Error> {
        let mut last = None;
        self.handle.borrow_mut().change(key, |found| {
            let live = found.filter(|content| content.is_live(clock::now));
            let was_over = found.is_some() && live.is_none();
            let (step, answer) = change(live.cloned());
            let step = match step {
                Step::Leave if was_over => Change::Remove,
                Step::Leave => Change::Leave,
                Step::Put(content) => Change::Put(content),
                Step::Remove => Change::Remove,
            };
            let had = found.map(|content| content.deadline.is_some());
            let has = match &step {
                Change::Leave => had,
                Change::Put(content) => Some(content.deadline.is_some()),
                Change::Remove => None,
            };
            last = Some((Effect { had, has, was_over }, answer));
            step
        })?;
        let (effect, answer) = last.expect("what was changed was asked about");
        self.count(effect);
        Ok(answer)
    }

    fn page(&self, range: Range<End<'k>>) -> Result<Page<Vec<u8>, Value>, Error> {
        let (mut pairs, mut next, begin) = (Vec::new(), None, clock::now());
        let Range { low, high, limit, is_down } = range;
        let bounds = match (low, high) {
            (End::Greatest, _) | (_, End::Least) => return Ok(Page { pairs, next }),
            (low, high) => (bound_of(low), bound_of(high)),
        };
        let mut count = 0;
        let visit = |key: &[u8], content: &Content<Value>| {
            if count == limit {
                next = Some(key.to_vec());
            } else if content.is_live(|| begin) {
                pairs.push((key.to_vec(), Arc::clone(&content.value)));
            }
            count += 1;
        };
        let mut handle = self.handle.borrow_mut();
        if is_down {
            handle.for_last(bounds, limit + 1, visit)?;
        } else {
            handle.for_first(bounds, limit + 1, visit)?;
        }
        Ok(Page { pairs, next })
    }

    /// Keys that begin as the pattern does stand together, so no others are looked at.
    fn scan(&self, cursor: u64, count: usize, pattern: Option<&[u8]>) -> Result<Option<Scanned>, Error> {
        let (mut low, below) = Prefix(literal_prefix(pattern.unwrap_or(b"*"))).ends();
        if cursor != 0 {
            match locked(&self.shared.cursors).place(cursor) {
                Some(place) => low = low.max(place.to_vec()),
                None => return Ok(None),
            }
        }
        let (mut keys, begin) = (Vec::new(), clock::now());
        let range = (Bound::Included(low), below.map_or(Bound::Unbounded, Bound::Excluded));
        let next = self.visit(range, count, |key, content| {
            if content.is_live(|| begin) {
                keys.push(key.to_vec());
            }
        })?;
        Ok(Some(Scanned { keys, next: next.map_or(0, |next| locked(&self.shared.cursors).tell(next)) }))
    }
}

fn bound_of(end: End<'_>) -> Bound<&[u8]> {
    match end {
        End::Least | End::Greatest => Bound::Unbounded,
        End::At(key) => Bound::Included(key),
        End::Beside(key) => Bound::Excluded(key),
    }
}

#[cfg(test)]
mod tests {
    use super::*;
    use citrus_map::Index;
    use std::sync::atomic::{AtomicBool, Ordering::Relaxed};
    use std::thread;
    use std::time::{Duration, Instant};

    /// A deadline that no test lives to see.
    const FAR: u64 = 1 << 62;

    fn stores(workers: u32) -> Vec<StringStore> {
        StringStore::all(Index::builder(10_000, workers)).expect("there is memory")
    }

    fn until(value: &str, deadline: Option<u64>) -> Content<Value> {
        Content { value: value.as_bytes().into(), deadline }
    }

    fn told(value: Result<Option<Value>, Error>) -> Option<String> {
        value.expect("the index answers").map(|value| String::from_utf8_lossy(&value).into_owned())
    }

    #[test]
    fn the_counts_follow_every_kind_of_update() {
        let stores = stores(2);
        let (one, other) = (&stores[0], &stores[1]);
        let facts = || (one.facts().size, other.facts().deadlines);
        assert_eq!((told(one.set(b"a", until("1", None))), told(other.set(b"a", until("2", Some(FAR))))), (None, Some("1".into())));
        assert_eq!(facts(), (1, (1, 0)));
        assert_eq!((other.set_if_absent(b"a", Arc::from(&b"3"[..])), one.set_if_absent(b"b", Arc::from(&b"3"[..]))), (Ok(false), Ok(true)));
        assert_eq!((one.add(b"b", 4), one.add(b"c", 4)), (Ok(7), Ok(4)));
        assert_eq!((facts(), told(one.get(b"b"))), ((3, (1, 0)), Some("7".into())));
        assert_eq!((told(other.remove(b"a")), told(other.remove(b"a"))), (Some("2".into()), None));
        assert_eq!(facts(), (2, (0, 0)));
        // Each of these meets a key whose deadline is over.
        for meet in [
            (|store| told(store.get(b"d"))) as fn(&StringStore) -> Option<String>,
            |store| told(store.remove(b"d")),
            |store| told(store.set(b"d", until("5", None))).or_else(|| told(store.remove(b"d")).filter(|value| value != "5")),
            |store| store.content(b"d").expect("the index answers").map(|_| String::new()),
            |store| store.expire_some().map(|_| None).expect("the index answers"),
            |store| told(store.get_many(&[b"d"]).map(|mut values| values.remove(0))),
        ] {
            let before = one.facts().deadlines.1;
            assert_eq!(told(one.set(b"d", until("4", Some(1)))), None);
            assert_eq!(meet(other), None);
            assert_eq!(facts(), (2, (0, before + 1)));
        }
        let mut place = Some(Vec::new());
        while let Some(from) = place {
            place = other.clear_some(from).expect("there is memory");
        }
        assert_eq!(facts().0, 0);
    }

    #[test]
    fn what_workers_add_at_once_is_added_up() {
        let adding = |store: StringStore| {
            (0..2_000).for_each(|_| assert!(store.add(b"count", 3).is_ok()));
            store
        };
        let threads: Vec<_> = stores(4).into_iter().map(|store| thread::spawn(move || adding(store))).collect();
        let stores: Vec<StringStore> = threads.into_iter().map(|thread| thread.join().expect("no addition fails")).collect();
        assert_eq!((told(stores[0].get(b"count")), stores[0].facts().size), (Some("24000".into()), 1));
    }

    /// Owners let keys come to their deadline and renew them at about that moment, while others look for keys that are over.
    #[test]
    fn no_renewed_key_is_lost_and_no_expired_one_is_told() {
        const OWNERS: usize = 3;
        let is_over = AtomicBool::new(false);
        thread::scope(|scope| {
            for (owner, store) in stores(OWNERS as u32 + 1).into_iter().enumerate() {
                let is_over = &is_over;
                scope.spawn(move || {
                    let key = format!("all owners' keys begin alike {owner}");
                    (0..).take_while(|round| *round < 6 || !is_over.load(Relaxed)).for_each(|round| {
                        if owner < OWNERS {
                            renew(&store, key.as_bytes(), round);
                        } else {
                            assert!(store.expire_some().is_ok());
                        }
                    });
                });
            }
            thread::sleep(Duration::from_secs(1));
            is_over.store(true, Relaxed);
        });
    }

    fn renew(store: &StringStore, key: &[u8], round: u64) {
        let deadline = clock::now() + 1;
        store.set(key, until("old", Some(deadline))).expect("it fits");
        let begin = Instant::now();
        while clock::now() < deadline || begin.elapsed() < Duration::from_micros(round * 97 % 1_500) {
            assert!(round % 3 == 0 || told(store.get(key)).map_or(true, |value| value == "old"));
        }
        assert!(round % 3 != 1 || told(store.get(key)).is_none(), "it is told behind its deadline, round {round}");
        let is_there = match round % 4 {
            0 => store.set(key, until("new", Some(FAR))).map(|_| true),
            1 => store.set(key, until("new", None)).map(|_| true),
            2 => store.set_if_absent(key, Arc::from(&b"new"[..])),
            _ => store.change(key, |found| {
                (Step::Put(until("new", Some(FAR))), found.map_or(true, |content| content.deadline == Some(deadline)))
            }),
        };
        assert_eq!(is_there, Ok(true));
        for turn in 0..20 {
            assert_eq!(told(store.get(key)), Some("new".into()), "round {round}, turn {turn}");
            thread::yield_now();
        }
    }

    #[test]
    fn keys_that_are_over_are_found_in_one_round() {
        let store = stores(1).remove(0);
        for number in 0..3_000 {
            let deadline = if number % 3 == 0 { 1 } else { FAR };
            store.set(format!("key {number}").as_bytes(), until("1", Some(deadline))).expect("it fits");
        }
        while store.expire_some().expect("the index answers") {}
        assert_eq!((store.facts().size, store.facts().deadlines), (2_000, (2_000, 1_000)));
    }
}
