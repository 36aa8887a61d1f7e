//! Ranges over a map's values: each is read one at a time, from both ends, and none after it was dropped.

mod common;

use citrus_map::{Error, Guard, Index, KeyedMap, Map, MapHandle, MapRange, Waiter};
use common::{draws_of, Draws, Over};
use std::collections::BTreeMap;
use std::panic::{catch_unwind, AssertUnwindSafe};
use std::sync::atomic::{AtomicBool, AtomicUsize, Ordering::SeqCst};
use std::thread;

const WAITERS: [Waiter; 3] = [Waiter::Eer, Waiter::Domain, Waiter::Deer];

/// What is given up: it is checked where it is read.
struct Checked {
    text: String,
    key: u64,
}

impl Checked {
    fn new(key: u64) -> Checked {
        Checked { text: format!("the value of key {key}"), key }
    }

    fn is_of(&self, key: u64) -> bool {
        self.key == key && self.text.ends_with(&format!(" {key}"))
    }
}

impl Drop for Checked {
    fn drop(&mut self) {
        self.text.clear();
        self.key = !self.key;
    }
}

/// The key of what was found, whose value is of it.
fn key_of(found: Option<Guard<'_, Checked>>) -> Option<u64> {
    found.map(|value| {
        assert!(value.is_of(Guard::key(&value)));
        Guard::key(&value)
    })
}

fn is_gone_through_as(mut range: MapRange<u64, Checked>, mut model: impl DoubleEndedIterator<Item = u64>, draws: &mut Draws) {
    loop {
        let from_below = draws.below(2) == 0;
        for _ in 0..1 + draws.below(1_500) {
            let (told, wanted) = if from_below { (range.next(), model.next()) } else { (range.next_back(), model.next_back()) };
            assert_eq!(key_of(told.unwrap()), wanted);
            if wanted.is_none() {
                assert!(range.next().unwrap().is_none());
                assert!(range.next_back().unwrap().is_none());
                return;
            }
        }
    }
}

#[test]
fn ranges_are_gone_through_from_both_ends_as_those_of_std() {
    let mut draws = draws_of(0);
    for count in [0, 1, 2, 1_000, 1_001, 2_500] {
        let map = Map::new(5_000, 1).unwrap();
        let mut handle = map.handle().unwrap();
        let keys = (0..count).map(|number| number * (u64::MAX / count.max(2))).chain((count > 2).then_some(u64::MAX));
        let model: BTreeMap<_, _> = keys.map(|key| (key, ())).collect();
        for key in model.keys() {
            assert!(handle.insert(*key, Checked::new(*key)).is_ok());
        }
        is_gone_through_as(handle.range(..), model.keys().copied(), &mut draws);
        for _ in 0..5 {
            let (one, other) = (draws.draw(), draws.draw());
            let (low, high) = (one.min(other), one.max(other));
            is_gone_through_as(handle.range(low..=high), model.range(low..=high).map(|(key, _)| *key), &mut draws);
            is_gone_through_as(handle.range(..low), model.range(..low).map(|(key, _)| *key), &mut draws);
            let mut visited = Vec::new();
            handle.for_each(low.., |key, value| visited.push((key, value.is_of(key)))).unwrap();
            assert!(visited.into_iter().eq(model.range(low..).map(|(key, _)| (*key, true))));
            assert_eq!(handle.len_in(low..=high), Ok(model.range(low..=high).count()));
        }
        assert_eq!((handle.len_in(5..5), handle.len_in(..)), (Ok(0), Ok(model.len())));
        assert!(handle.range(5..5).next().unwrap().is_none());
    }
}

#[test]
fn the_ends_are_found_and_taken_out() {
    let map = KeyedMap::<(i8, u32), &str>::new(100, 1).unwrap();
    let mut handle = map.handle().unwrap();
    assert!(handle.first().unwrap().is_none());
    assert!(handle.last().unwrap().is_none());
    assert_eq!(
        (handle.first_key(), handle.last_key(), handle.pop_first_from((0, 0)), handle.pop_last_to((0, 0))),
        (Ok(None), Ok(None), Ok(None), Ok(None))
    );
    let pairs = [((-1, 5), "a"), ((0, 3), "b"), ((0, 7), "c"), ((9, 0), "d")];
    for (key, value) in pairs {
        assert!(handle.insert(key, value).is_ok());
    }
    let mut is = |found: fn(&mut citrus_map::KeyedMapHandle<(i8, u32), &'static str>) -> Option<((i8, u32), &'static str)>, at: usize| {
        assert_eq!(found(&mut handle), Some(pairs[at]));
    };
    is(|handle| handle.first().unwrap().map(|value| (Guard::key(&value), *value)), 0);
    is(|handle| handle.last().unwrap().map(|value| (Guard::key(&value), *value)), 3);
    is(|handle| handle.first_from((0, 4)).unwrap().map(|value| (Guard::key(&value), *value)), 2);
    is(|handle| handle.last_to((0, 6)).unwrap().map(|value| (Guard::key(&value), *value)), 1);
    assert!(handle.first_from((9, 1)).unwrap().is_none());
    assert!(handle.last_to((-1, 4)).unwrap().is_none());
    assert_eq!(
        (handle.first_key(), handle.last_key(), handle.first_key_from((0, 4))),
        (Ok(Some((-1, 5))), Ok(Some((9, 0))), Ok(Some((0, 7))))
    );
    assert_eq!(handle.len_in((0, 0)..(1, 0)), Ok(2));
    assert_eq!((handle.pop_first_from((0, 0)), handle.pop_last_to((8, 0))), (Ok(Some(pairs[1])), Ok(Some(pairs[2]))));
    assert_eq!((handle.pop_first_from((9, 1)), handle.pop_first(), handle.pop_last()), (Ok(None), Ok(Some(pairs[0])), Ok(Some(pairs[3]))));
}

#[test]
fn what_is_gone_is_left_out_and_what_was_replaced_is_read() {
    for waiter in WAITERS {
        let map = Map::build(Index::builder(100, 2).waiter(waiter)).unwrap();
        let (mut mine, mut other) = (map.handle().unwrap(), map.handle().unwrap());
        for key in 0..8 {
            mine.insert(key, key).unwrap();
        }
        let mut pairs = mine.range(1..);
        assert_eq!(pairs.next().unwrap().map(|value| *value), Some(1));
        assert_eq!(other.remove(2), Ok(Some(2)));
        assert_eq!(other.replace(3, 30).unwrap(), 3);
        assert_eq!(other.remove(5), Ok(Some(5)));
        other.insert(5, 50).unwrap();
        other.remove(7).unwrap();
        // Its page was listed before.
        other.insert(8, 8).unwrap();
        let value = pairs.next().unwrap().unwrap();
        assert_eq!((Guard::key(&value), *value), (3, 30));
        // A guard is there, so its thread updates by no handle of the map.
        assert_eq!(other.remove(4), Err(Error::Holds));
        drop(value);
        assert_eq!(other.remove(4), Ok(Some(4)));
        assert_eq!(pairs.next_back().unwrap().map(|value| *value), Some(6));
        assert_eq!(pairs.next().unwrap().map(|value| *value), Some(50));
        assert!(pairs.next().unwrap().is_none());
        assert!(pairs.next_back().unwrap().is_none());
        assert_eq!(mine.keys(..), Ok(vec![0, 1, 3, 5, 6, 8]));
    }
}

#[test]
fn a_panic_in_a_visit_releases() {
    let map = Map::new(100, 2).unwrap();
    let (mut mine, mut other) = (map.handle().unwrap(), map.handle().unwrap());
    mine.insert(5, 50).unwrap();
    assert!(catch_unwind(AssertUnwindSafe(|| mine.for_each(.., |_, _| panic!("in a visit")))).is_err());
    assert_eq!(other.remove(5), Ok(Some(50)));
    // A guard that is forgotten is released by the next step.
    mine.insert(6, 60).unwrap();
    mine.insert(7, 70).unwrap();
    let mut pairs = mine.range(..);
    std::mem::forget(pairs.next().unwrap());
    assert_eq!(pairs.next_back().unwrap().map(|value| *value), Some(70));
    assert_eq!(other.remove(6), Ok(Some(60)));
}

/// Puts odd keys in, gives any key another value, and takes odd ones out, until it is over.
fn change(handle: &mut MapHandle<Checked>, keys: u64, thread: u64, is_over: &AtomicBool) {
    let mut draws = draws_of(thread);
    while !is_over.load(SeqCst) {
        let key = draws.below(keys);
        match draws.below(4) {
            0 => drop(handle.replace(key, Checked::new(key))),
            1 if key % 2 == 1 => assert!(handle.retire(key).is_ok()),
            2 if key % 2 == 1 => assert!(handle.remove(key).unwrap().map_or(true, |value| value.is_of(key))),
            _ => drop(handle.insert(key, Checked::new(key))),
        }
    }
}

#[test]
fn beside_writers_what_stays_comes_once_and_nothing_dropped_is_read() {
    const KEYS: u64 = 2_500;
    for waiter in WAITERS {
        let map = Map::build(Index::builder(KEYS as u32, 4).waiter(waiter)).unwrap();
        let mut handle = map.handle().unwrap();
        for key in (0..KEYS).step_by(2) {
            assert!(handle.insert(key, Checked::new(key)).is_ok());
        }
        let is_over = AtomicBool::new(false);
        thread::scope(|scope| {
            for thread in 1..4 {
                let (mut handle, is_over) = (map.handle().unwrap(), &is_over);
                scope.spawn(move || change(&mut handle, KEYS, thread, is_over));
            }
            let _over = Over(&is_over);
            let mut draws = draws_of(9);
            for _ in 0..20 {
                let mut pairs = handle.range(..);
                let (mut below, mut above, mut even) = (None, KEYS, 0);
                loop {
                    let from_below = draws.below(2) == 0;
                    let found = if from_below { pairs.next() } else { pairs.next_back() };
                    let key = match key_of(found.unwrap()) {
                        Some(key) => key,
                        None => break,
                    };
                    assert!(below < Some(key) && key < above);
                    even += u64::from(key % 2 == 0);
                    (below, above) = if from_below { (Some(key), above) } else { (below, key) };
                }
                assert_eq!(even, KEYS / 2);
                assert!(handle.first().unwrap().map_or(false, |value| value.is_of(0)));
            }
        });
    }
}

#[test]
fn threads_pop_each_value_once() {
    const PAIRS: u64 = 3_000;
    for waiter in WAITERS {
        let map = Map::build(Index::builder(PAIRS as u32, 4).waiter(waiter)).unwrap();
        let mut handle = map.handle().unwrap();
        for key in 0..PAIRS {
            assert!(handle.insert(key, Checked::new(key)).is_ok());
        }
        drop(handle);
        let popped = AtomicUsize::new(0);
        let seen: Vec<_> = (0..PAIRS).map(|_| AtomicBool::new(false)).collect();
        thread::scope(|scope| {
            for number in 0..4 {
                let (mut handle, popped, seen) = (map.handle().unwrap(), &popped, &seen);
                scope.spawn(move || {
                    while let Some((key, value)) = if number % 2 == 0 { handle.pop_first() } else { handle.pop_last() }.unwrap() {
                        assert!(value.is_of(key) && !seen[key as usize].swap(true, SeqCst));
                        popped.fetch_add(1, SeqCst);
                    }
                });
            }
        });
        assert_eq!(popped.load(SeqCst), PAIRS as usize);
    }
}
