//! Values of any type: each is dropped once, and none while a guard leads to it.

mod common;

use citrus_map::{Builder, Error, Guard, Index, Key, KeyedMap, KeyedMapHandle, Map, Refused, Waiter, MOST_RETIRED};
use common::draws_of;
use std::cell::Cell;
use std::panic::{catch_unwind, AssertUnwindSafe};
use std::sync::atomic::{AtomicBool, AtomicU64, AtomicUsize, Ordering::SeqCst};
use std::sync::{mpsc, Arc};
use std::thread;
use std::time::Duration;

const LIVE: u64 = 0x11ee_11ee_11ee_11ee;

/// Counts how many there are, and tells whether it was dropped before.
struct Counted {
    live: u64,
    key: u64,
    count: Arc<AtomicUsize>,
}

impl Counted {
    fn new(key: u64, count: &Arc<AtomicUsize>) -> Counted {
        count.fetch_add(1, SeqCst);
        Counted { live: LIVE, key, count: Arc::clone(count) }
    }
}

impl Drop for Counted {
    fn drop(&mut self) {
        assert_eq!(self.live, LIVE, "dropped twice");
        // SAFETY: a store to a field of our own, which the compiler can't leave out.
        unsafe { std::ptr::write_volatile(&mut self.live, 0xdead) };
        self.count.fetch_sub(1, SeqCst);
    }
}

fn waiters() -> [Waiter; 3] {
    [Waiter::Eer, Waiter::Domain, Waiter::Deer]
}

#[test]
fn calls_answer_as_a_map() {
    for waiter in waiters() {
        let map = Map::build(Index::builder(200, 2).waiter(waiter)).unwrap();
        let mut handle = map.handle().unwrap();
        assert!(handle.get(5).unwrap().is_none());
        assert!(handle.insert(5, "a".to_string()).is_ok());
        let refused = handle.insert(5, "b".to_string()).unwrap_err();
        assert_eq!((refused.cause, refused.value.as_deref()), (Error::Present, Some("b")));
        assert_eq!(handle.get(5).unwrap().unwrap().as_str(), "a");
        assert_eq!(Guard::key(&handle.get(5).unwrap().unwrap()), 5);
        assert_eq!(handle.replace(5, "c".to_string()).unwrap(), "a");
        let Refused { cause, value } = handle.replace(6, "d".to_string()).unwrap_err();
        assert_eq!((cause, value.as_deref()), (Error::Absent, Some("d")));
        assert_eq!(handle.upsert(5, "e".to_string()).unwrap(), Some("c".to_string()));
        assert_eq!(handle.upsert(6, "f".to_string()).unwrap(), None);
        assert_eq!(handle.keys(..), Ok(vec![5, 6]));
        assert_eq!((handle.contains_key(5), handle.contains_key(7)), (Ok(true), Ok(false)));
        assert_eq!(handle.remove(5).unwrap(), Some("e".to_string()));
        assert_eq!(handle.remove(5).unwrap(), None);
        assert!(handle.retire(6).unwrap());
        assert!(!handle.retire(6).unwrap());
        assert_eq!(handle.keys(..), Ok(vec![]));
    }
}

#[test]
fn pairs_are_taken_out_at_both_ends_and_by_ranges() {
    for waiter in waiters() {
        let count = Arc::new(AtomicUsize::new(0));
        let map = Map::build(Index::builder(3_000, 1).waiter(waiter)).unwrap();
        let mut handle = map.handle().unwrap();
        assert_eq!((handle.is_empty(), handle.len()), (Ok(true), Ok(0)));
        assert_eq!((handle.first_key_from(0), handle.last_key_to(9)), (Ok(None), Ok(None)));
        assert!(handle.pop_first().unwrap().is_none() && handle.pop_last().unwrap().is_none());
        for key in 0..3_000 {
            handle.insert(key, Counted::new(key, &count)).unwrap();
        }
        assert_eq!((handle.is_empty(), handle.len()), (Ok(false), Ok(3_000)));
        assert_eq!((handle.first_key_from(5), handle.last_key_to(9_999)), (Ok(Some(5)), Ok(Some(2_999))));
        for (expected, told) in [(0, handle.pop_first()), (2_999, handle.pop_last())] {
            let (key, value) = told.unwrap().unwrap();
            assert_eq!((key, value.key), (expected, expected));
        }
        assert_eq!(handle.retain(1_000..2_500, |key, value| value.key == key && key % 3 == 0), Ok(1_000));
        assert_eq!(handle.len(), Ok(1_998));
        assert_eq!(handle.retain(7..7, |_, _| false), Ok(0));
        assert_eq!(handle.clear(), Ok(1_998));
        handle.flush().unwrap();
        assert_eq!((handle.is_empty(), count.load(SeqCst)), (Ok(true), 0));
    }
}

#[test]
fn a_pair_goes_while_its_value_is_the_one_that_was_read() {
    for waiter in waiters() {
        let count = Arc::new(AtomicUsize::new(0));
        let map = Map::build(Index::builder(100, 2).waiter(waiter)).unwrap();
        let mut handle = map.handle().unwrap();
        assert!(handle.remove_if(5, |_| panic!("it is absent")).unwrap().is_none());
        assert_eq!(handle.retire_if(5, |_| panic!("it is absent")), Ok(false));
        handle.insert(5, Counted::new(5, &count)).unwrap();
        assert!(handle.remove_if(5, |value| value.key != 5).unwrap().is_none());
        assert_eq!(handle.remove_if(5, |value| value.key == 5).unwrap().map(|value| value.key), Some(5));
        handle.insert(6, Counted::new(6, &count)).unwrap();
        assert_eq!((handle.retire_if(6, |value| value.key != 6), handle.retire_if(6, |value| value.key == 6)), (Ok(false), Ok(true)));
        handle.flush().unwrap();
        assert_eq!((handle.is_empty(), count.load(SeqCst)), (Ok(true), 0));
    }
}

#[test]
fn an_update_reads_the_value_and_gives_it_back() {
    for waiter in waiters() {
        let count = Arc::new(AtomicUsize::new(0));
        let map = Map::build(Index::builder(100, 2).waiter(waiter)).unwrap();
        let (mut handle, mut other) = (map.handle().unwrap(), map.handle().unwrap());
        assert!(handle.update(5, |_| panic!("it is absent")).unwrap().is_none());
        handle.insert(5, Counted::new(5, &count)).unwrap();
        let before = handle.update(5, |value| Counted::new(value.key + 1, &value.count)).unwrap().unwrap();
        assert_eq!((before.key, handle.get(5).unwrap().unwrap().key, count.load(SeqCst)), (5, 6, 2));
        drop(before);
        let refused = handle.update(5, |value| {
            assert_eq!(other.retire(5), Err(Error::Holds));
            assert!(other.update(5, |_| panic!("it waits")).is_err());
            Counted::new(value.key + 1, &value.count)
        });
        assert_eq!(refused.unwrap().unwrap().key, 6);
        let panics = catch_unwind(AssertUnwindSafe(|| handle.update(5, |_| panic!("in an update"))));
        assert!(panics.is_err());
        let last = handle.remove(5).unwrap().unwrap().key;
        assert_eq!((last, count.load(SeqCst)), (7, 0));
    }
}

#[test]
fn each_value_is_dropped_once() {
    for waiter in waiters() {
        let count = Arc::new(AtomicUsize::new(0));
        let map = Map::build(Index::builder(1_000, 3).waiter(waiter)).unwrap();
        let mut handle = map.handle().unwrap();
        for key in 0..500 {
            handle.insert(key, Counted::new(key, &count)).unwrap();
        }
        assert_eq!(count.load(SeqCst), 500);
        for key in 0..100 {
            assert_eq!(handle.remove(key).unwrap().unwrap().key, key);
        }
        assert_eq!(count.load(SeqCst), 400);
        for key in 100..150 {
            drop(handle.replace(key, Counted::new(key, &count)).unwrap());
            drop(handle.upsert(key, Counted::new(key, &count)).unwrap().unwrap());
            drop(handle.update(key, |value| Counted::new(value.key, &count)).unwrap().unwrap());
            assert!(handle.update(key + 800, |value| Counted::new(value.key, &count)).unwrap().is_none());
            assert!(handle.replace(key + 800, Counted::new(key, &count)).is_err());
            assert!(handle.insert(key, Counted::new(key, &count)).is_err());
        }
        assert_eq!(count.load(SeqCst), 400);
        for key in 200..400 {
            assert!(handle.retire(key).unwrap());
            assert!(count.load(SeqCst) <= 400 - (key - 199) as usize + MOST_RETIRED);
        }
        handle.flush().unwrap();
        assert_eq!(count.load(SeqCst), 200);
        for key in 400..410 {
            assert!(handle.retire(key).unwrap());
        }
        // A handle that goes back keeps what it retired; the map drops all with its last handle.
        drop(map);
        assert!(count.load(SeqCst) >= 190);
        drop(handle);
        assert_eq!(count.load(SeqCst), 0);
    }
}

#[test]
fn a_full_map_gives_the_value_back() {
    let count = Arc::new(AtomicUsize::new(0));
    let map = Map::new(3, 1).unwrap();
    let mut handle = map.handle().unwrap();
    let refused = (0..99).find_map(|key| handle.insert(key, Counted::new(key, &count)).err()).unwrap();
    assert_eq!((refused.cause, refused.value.as_ref().map(|it| it.key)), (Error::Full, Some(3 + 68)));
    let refused = handle.upsert(3 + 68, refused.value.unwrap()).err().unwrap();
    assert_eq!((refused.cause, refused.value.as_ref().map(|it| it.key)), (Error::Full, Some(3 + 68)));
    drop((refused, handle, map));
    assert_eq!(count.load(SeqCst), 0);
}

#[test]
fn a_remove_waits_for_a_guard_and_a_retire_does_not() {
    for waiter in waiters() {
        let count = Arc::new(AtomicUsize::new(0));
        let map = Map::build(Index::builder(100, 4).waiter(waiter)).unwrap();
        let mut reader = map.handle().unwrap();
        let mut writer = map.handle().unwrap();
        writer.insert(5, Counted::new(5, &count)).unwrap();
        writer.insert(6, Counted::new(6, &count)).unwrap();
        let over = AtomicBool::new(false);
        thread::scope(|scope| {
            let guard = reader.get(5).unwrap().unwrap();
            let (tell, told) = mpsc::channel();
            let over = &over;
            scope.spawn(move || {
                assert_eq!(writer.remove(6).unwrap().unwrap().key, 6);
                tell.send(()).unwrap();
                let value = writer.remove(5).unwrap().unwrap();
                assert!(over.load(SeqCst), "given back beside a guard");
                assert_eq!(value.key, 5);
            });
            told.recv().unwrap();
            thread::sleep(Duration::from_millis(30));
            assert_eq!((guard.live, guard.key), (LIVE, 5));
            over.store(true, SeqCst);
            drop(guard);
        });
        assert_eq!(count.load(SeqCst), 0);

        let mut writer = map.handle().unwrap();
        writer.insert(5, Counted::new(5, &count)).unwrap();
        let guard = reader.get(5).unwrap().unwrap();
        let in_thread = |work: &mut (dyn FnMut() + Send)| thread::scope(|scope| scope.spawn(work).join().unwrap());
        in_thread(&mut || assert!(writer.retire(5).unwrap()));
        assert!(writer.get(5).unwrap().is_none());
        assert_eq!((guard.live, guard.key), (LIVE, 5));
        drop(guard);
        writer.flush().unwrap();
        assert_eq!(count.load(SeqCst), 0);
    }
}

#[test]
fn a_panic_in_a_reader_releases() {
    let map = Map::new(100, 2).unwrap();
    let mut reader = map.handle().unwrap();
    let mut writer = map.handle().unwrap();
    writer.insert(5, vec![1, 2, 3]).unwrap();
    let panicked = catch_unwind(AssertUnwindSafe(|| {
        let guard = reader.get(5).unwrap().unwrap();
        assert_eq!(guard[9], 1);
    }));
    assert!(panicked.is_err());
    assert_eq!(writer.remove(5).unwrap(), Some(vec![1, 2, 3]));
    assert!(reader.get(5).unwrap().is_none());
}

#[test]
fn a_panic_in_a_thread_gives_its_handle_back() {
    let map = Arc::new(Map::new(100, 2).unwrap());
    map.handle().unwrap().insert(5, 50_u64).unwrap();
    let other = Arc::clone(&map);
    let ended = thread::spawn(move || {
        let mut handle = other.handle().unwrap();
        let _guard = handle.get(5).unwrap().unwrap();
        panic!("in a section");
    })
    .join();
    assert!(ended.is_err());
    let (mut one, _two) = (map.handle().unwrap(), map.handle().unwrap());
    assert_eq!(one.remove(5).unwrap(), Some(50));
}

#[test]
fn a_forgotten_guard_is_released_by_the_next_call() {
    let map = Map::new(100, 2).unwrap();
    let mut one = map.handle().unwrap();
    let mut two = map.handle().unwrap();
    one.insert(5, 50_u64).unwrap();
    std::mem::forget(one.get(5).unwrap().unwrap());
    assert_eq!(one.get(5).unwrap().as_deref(), Some(&50));
    std::mem::forget(one.get(5).unwrap().unwrap());
    assert_eq!(one.remove(5).unwrap(), Some(50));
    one.insert(5, 51).unwrap();
    std::mem::forget(one.get(5).unwrap().unwrap());
    drop(one);
    assert_eq!(two.remove(5).unwrap(), Some(51));
}

#[test]
fn each_value_of_size_0_is_dropped_once() {
    static LEFT: AtomicUsize = AtomicUsize::new(0);
    struct Nothing;
    impl Drop for Nothing {
        fn drop(&mut self) {
            LEFT.fetch_sub(1, SeqCst);
        }
    }
    let map = Map::new(100, 1).unwrap();
    let mut handle = map.handle().unwrap();
    LEFT.store(40, SeqCst);
    for key in 0..40 {
        handle.insert(key, Nothing).unwrap();
    }
    for key in 0..20 {
        handle.retire(key).unwrap();
    }
    drop((map, handle));
    assert_eq!(LEFT.load(SeqCst), 0);
}

#[test]
fn other_threads_may_read_what_a_guard_leads_to() {
    let map = Map::new(100, 1).unwrap();
    let mut handle = map.handle().unwrap();
    handle.insert(1, vec![7; 9]).unwrap();
    let guard = handle.get(1).unwrap().unwrap();
    thread::scope(|scope| {
        let value: &Vec<i32> = &guard;
        assert_eq!(scope.spawn(move || value.iter().sum::<i32>()).join().unwrap(), 63);
    });
}

#[test]
fn a_thread_with_a_guard_updates_by_no_handle_of_the_map() {
    for waiter in waiters() {
        let map = Map::build(Index::builder(100, 3).waiter(waiter)).unwrap();
        let (mut reader, mut writer) = (map.handle().unwrap(), map.handle().unwrap());
        let elsewhere = Map::new(100, 1).unwrap();
        writer.insert(5, 50).unwrap();
        writer.insert(6, 60).unwrap();
        writer.retire(6).unwrap();
        let guard = reader.get(5).unwrap().unwrap();
        for refused in [writer.insert(7, 70), writer.replace(5, 51).map(|_| ()), writer.upsert(5, 51).map(|_| ())] {
            let refused = refused.unwrap_err();
            assert_eq!(refused.cause, Error::Holds);
            assert!(refused.value.is_some());
        }
        assert_eq!(writer.update(5, |value| value + 1), Err(Error::Holds));
        assert_eq!(writer.remove(5), Err(Error::Holds));
        assert_eq!(writer.retire(5), Err(Error::Holds));
        assert_eq!(writer.pop_first(), Err(Error::Holds));
        assert_eq!(writer.clear(), Err(Error::Holds));
        assert_eq!(writer.flush(), Err(Error::Holds));
        assert_eq!(writer.tidy(.., 1), Err(Error::Holds));
        // It reads on, another map isn't concerned, and another thread isn't either.
        assert_eq!(writer.get(5).unwrap().as_deref(), Some(&50));
        assert_eq!(writer.keys(..), Ok(vec![5]));
        elsewhere.handle().unwrap().insert(5, 50).unwrap();
        thread::scope(|scope| scope.spawn(|| map.handle().unwrap().insert(8, 80).unwrap()).join().unwrap());
        assert_eq!(*guard, 50);
        drop(guard);
        assert_eq!(writer.remove(5), Ok(Some(50)));
        assert_eq!(writer.flush(), Ok(()));
    }
}

#[test]
fn a_forgotten_guard_is_seen_until_its_handle_makes_a_call() {
    let map = Map::new(100, 3).unwrap();
    let (mut reader, mut writer) = (map.handle().unwrap(), map.handle().unwrap());
    writer.insert(5, 50).unwrap();
    std::mem::forget(reader.get(5).unwrap().unwrap());
    assert_eq!(writer.remove(5), Err(Error::Holds));
    // The next call comes from another thread.
    let mut reader = thread::spawn(move || {
        assert_eq!(reader.contains_key(5), Ok(true));
        reader
    })
    .join()
    .unwrap();
    assert_eq!(writer.remove(5), Ok(Some(50)));
    writer.insert(5, 51).unwrap();
    std::mem::forget(reader.get(5).unwrap().unwrap());
    assert_eq!(writer.remove(5), Err(Error::Holds));
    drop(reader);
    assert_eq!(writer.remove(5), Ok(Some(51)));
}

#[test]
fn a_thread_may_have_two_guards() {
    let map = Map::new(100, 2).unwrap();
    let (mut one, mut other) = (map.handle().unwrap(), map.handle().unwrap());
    one.insert(1, "a").unwrap();
    one.insert(2, "b").unwrap();
    let (first, second) = (one.get(1).unwrap().unwrap(), other.get(2).unwrap().unwrap());
    assert_eq!((*first, *second), ("a", "b"));
    drop(first);
    drop(second);
    assert_eq!(one.remove(2), Ok(Some("b")));
}

#[test]
fn a_flush_waits_for_the_readers_of_each_value() {
    for (waiter, held) in waiters().into_iter().flat_map(|waiter| (1..4).map(move |held| (waiter, held))) {
        let count = Arc::new(AtomicUsize::new(0));
        let map = Map::build(Index::builder(100, 2).waiter(waiter)).unwrap();
        let (mut reader, mut writer) = (map.handle().unwrap(), map.handle().unwrap());
        (1..4).for_each(|key| writer.insert(key, Counted::new(key, &count)).unwrap());
        let over = AtomicBool::new(false);
        thread::scope(|scope| {
            let (over, guard) = (&over, reader.get(held).unwrap().unwrap());
            let (tell, told) = mpsc::channel();
            scope.spawn(move || {
                // The least key first, so no removal waits for the guard.
                (1..4).for_each(|key| assert!(writer.retire(key).unwrap()));
                tell.send(()).unwrap();
                writer.flush().unwrap();
                assert!(over.load(SeqCst), "dropped beside a guard");
            });
            told.recv().unwrap();
            thread::sleep(Duration::from_millis(30));
            assert_eq!((guard.live, guard.key), (LIVE, held));
            over.store(true, SeqCst);
            drop(guard);
        });
        assert_eq!(count.load(SeqCst), 0);
    }
}

#[test]
fn a_wait_that_is_over_drops_what_was_retired_before_it_began() {
    let count = Arc::new(AtomicUsize::new(0));
    let map = Map::new(100, 3).unwrap();
    let (mut one, mut other, mut writer) = (map.handle().unwrap(), map.handle().unwrap(), map.handle().unwrap());
    for key in [1, 2].into_iter().chain(100..120) {
        one.insert(key, Counted::new(key, &count)).unwrap();
    }
    // No removal of the writer waits for a guard: their keys are the least ones, and it keeps few slots back.
    let mut retire = |key| thread::scope(|scope| assert!(scope.spawn(|| writer.retire(key).unwrap()).join().unwrap()));
    let first = one.get(1).unwrap().unwrap();
    retire(1);
    (100..115).for_each(&mut retire);
    let second = other.get(2).unwrap().unwrap();
    retire(2);
    assert_eq!((first.live, first.key), (LIVE, 1));
    drop(first);
    (115..118).for_each(&mut retire);
    assert_eq!((second.live, second.key), (LIVE, 2));
    drop(second);
    writer.flush().unwrap();
    assert_eq!(count.load(SeqCst), 2);
}

/// A take waits for a reader, since its handle keeps back all the slots that it may. Meanwhile another handle retires what it compares with, and more.
#[test]
fn a_retire_waits_for_no_take_that_waits_for_a_reader() {
    const KEPT: u32 = 40;
    const LAST: u64 = 1_000;
    for waiter in waiters() {
        let count = Arc::new(AtomicUsize::new(0));
        let map = Map::build(Index::builder(100, 3).keep(KEPT).waiter(waiter)).unwrap();
        let (mut reader, mut taker, mut writer) = (map.handle().unwrap(), map.handle().unwrap(), map.handle().unwrap());
        let (asked, is_retired) = (AtomicU64::new(0), AtomicBool::new(false));
        reader.insert(LAST, Counted::new(LAST, &count)).unwrap();
        let guard = reader.get(LAST).unwrap().unwrap();
        thread::scope(|scope| {
            let (asked, is_retired, count) = (&asked, &is_retired, &count);
            scope.spawn(move || {
                let mut takes = |key| {
                    taker.insert(key, Counted::new(key, count)).unwrap();
                    taker.retire_if(key, |_| asked.swap(key, SeqCst) < key).unwrap()
                };
                assert!((1..LAST).any(|key| !takes(key)), "each of its values was there still");
            });
            scope.spawn(move || {
                let mut key = 0;
                while key == 0 || asked.load(SeqCst) != key {
                    key = asked.load(SeqCst);
                    thread::sleep(Duration::from_millis(50));
                }
                assert!(writer.retire(key).unwrap());
                for key in LAST / 2..LAST / 2 + 25 {
                    writer.insert(key, Counted::new(key, count)).unwrap();
                    assert!(writer.retire(key).unwrap());
                }
                is_retired.store(true, SeqCst);
            });
            (0..1_000).take_while(|_| !is_retired.load(SeqCst)).for_each(|_| thread::sleep(Duration::from_millis(10)));
            let in_time = is_retired.load(SeqCst);
            drop(guard);
            assert!(in_time, "a retire waited for a reader");
        });
        drop((reader, map));
        assert_eq!(count.load(SeqCst), 0);
    }
}

#[test]
fn a_value_that_panics_as_it_is_dropped_keeps_no_other_from_being_dropped() {
    struct Panics(Counted);
    impl Drop for Panics {
        fn drop(&mut self) {
            assert!(self.0.key != 7, "this value is to panic");
        }
    }
    let count = Arc::new(AtomicUsize::new(0));
    let map = Map::new(100, 1).unwrap();
    let mut handle = map.handle().unwrap();
    for key in 0..20 {
        handle.insert(key, Panics(Counted::new(key, &count))).unwrap();
    }
    for key in 5..10 {
        handle.retire(key).unwrap();
    }
    assert!(catch_unwind(AssertUnwindSafe(|| handle.flush())).is_err());
    assert_eq!(count.load(SeqCst), 15);
    handle.insert(7, Panics(Counted::new(7, &count))).unwrap();
    drop(handle);
    assert!(catch_unwind(AssertUnwindSafe(|| drop(map))).is_err());
    assert_eq!(count.load(SeqCst), 0);
}

#[test]
fn what_was_retired_is_dropped_by_later_calls_where_no_reader_is_left() {
    for waiter in waiters() {
        let count = Arc::new(AtomicUsize::new(0));
        let map = Map::build(Index::builder(2_000, 1).waiter(waiter)).unwrap();
        let mut handle = map.handle().unwrap();
        for key in 0..2_000 {
            handle.insert(key, Counted::new(key, &count)).unwrap();
        }
        // In an order in which few removals wait themselves, a wait that was begun is told by the next retire.
        let most = (0..2_000).map(|key| {
            handle.retire(key).unwrap();
            count.load(SeqCst) - (1_999 - key as usize)
        });
        let most = most.max().unwrap();
        assert!(most <= MOST_RETIRED, "{most}");
        // The handle goes back with what it has, and comes again with it.
        drop(handle);
        assert!(count.load(SeqCst) < MOST_RETIRED);
        map.handle().unwrap().flush().unwrap();
        assert_eq!(count.load(SeqCst), 0);
    }
}

#[test]
fn values_may_borrow() {
    let text = String::from("some words here");
    let map = Map::new(100, 1).unwrap();
    let mut handle = map.handle().unwrap();
    for (key, word) in (0..).zip(text.split(' ')) {
        handle.insert(key, word).unwrap();
    }
    assert_eq!(handle.get(1).unwrap().as_deref(), Some(&"words"));
}

/// The keys of a test in threads, by their numbers.
#[derive(Clone, Copy)]
struct Keys<K> {
    of: fn(u64) -> K,
    count: u64,
    /// Whether a key has another word each time.
    lie: bool,
}

/// A thread's calls on keys that all use. A value that is read is what was put in for its key, and is live for as long as it is read.
fn work_on_shared_keys<K: Key>(handle: &mut KeyedMapHandle<K, Counted>, thread: u64, keys: Keys<K>, count: &Arc<AtomicUsize>) -> usize {
    let (mut draws, mut read) = (draws_of(thread), 0);
    for _ in 0..20_000 {
        let number = draws.below(keys.count);
        let key = (keys.of)(number);
        let is_of = |value: &Counted| keys.lie || value.key == number;
        let made = || Counted::new(number, count);
        match draws.below(13) {
            0 | 1 => drop(handle.insert(key, made())),
            2 => drop(handle.replace(key, made())),
            3 => drop(handle.upsert(key, made()).unwrap()),
            4 => drop(handle.remove(key).unwrap()),
            5 => drop(handle.retire(key).unwrap()),
            6 => {
                let changed = |value: &Counted| {
                    assert!(value.live == LIVE && is_of(value));
                    made()
                };
                drop(handle.update(key, changed).unwrap());
            }
            7 => drop(handle.remove_if(key, |value| value.live == LIVE && is_of(value)).unwrap()),
            8 => drop(handle.retire_if(key, |value| value.live == LIVE && is_of(value)).unwrap()),
            _ => {
                if let Some(value) = handle.get(key).unwrap() {
                    for _ in 0..draws.below(32) {
                        // SAFETY: a load of a value that is there; the compiler can't leave it out.
                        assert_eq!(unsafe { std::ptr::read_volatile(&value.live) }, LIVE);
                    }
                    assert!(is_of(&value));
                    read += 1;
                }
            }
        }
    }
    read
}

fn read_and_update<K: Key>(builder: Builder, keys: Keys<K>) {
    const THREADS: u64 = 4;
    let count = Arc::new(AtomicUsize::new(0));
    let map = KeyedMap::build(builder).unwrap();
    let read: usize = thread::scope(|scope| {
        let (map, count) = (&map, &count);
        let start = |thread| scope.spawn(move || work_on_shared_keys(&mut map.handle().unwrap(), thread, keys, count));
        let started: Vec<_> = (0..THREADS).map(start).collect();
        started.into_iter().map(|thread| thread.join().unwrap()).sum()
    });
    assert!(read > 0);
    drop(map);
    assert_eq!(count.load(SeqCst), 0);
}

/// Keys that are numbers: as many as this.
fn numbers(count: u64) -> Keys<u64> {
    Keys { of: |number| number, count, lie: false }
}

#[test]
fn threads_read_what_is_there() {
    for (waiter, keys) in waiters().into_iter().flat_map(|waiter| [(waiter, 4), (waiter, 300)]) {
        read_and_update(Index::builder(600, 4).waiter(waiter), numbers(keys));
    }
}

#[test]
fn threads_read_while_updates_take_turns() {
    for (waiter, keys) in waiters().into_iter().flat_map(|waiter| [(waiter, 4), (waiter, 300)]) {
        read_and_update(Index::builder(600, 4).waiter(waiter).updates_in_turn(true), numbers(keys));
    }
}

#[test]
fn threads_read_by_keys_of_other_types() {
    for waiter in waiters() {
        let builder = Index::builder(600, 4).waiter(waiter);
        read_and_update(builder, Keys { of: |number| number as i64 - 2, count: 4, lie: false });
        read_and_update(builder, Keys { of: |number| (number as f32 - 2.5, number as u8), count: 300, lie: false });
    }
}

/// A key that has another word each time, of more bits than it says.
#[derive(Clone, Copy)]
struct Liar;

impl Key for Liar {
    const BITS: u32 = 1;

    fn encode(self) -> u64 {
        static ASKED: AtomicU64 = AtomicU64::new(0);
        ASKED.fetch_add(1, SeqCst).wrapping_mul(0x9e37_79b9_7f4a_7c15) >> 62
    }

    fn decode(_: u64) -> Liar {
        Liar
    }
}

/// A key that has the first word when it is asked for the first time, and else the other one.
#[derive(Clone, Copy)]
struct Fickle(u64, u64);

thread_local!(static WAS_ASKED: Cell<bool> = Cell::new(false));

impl Fickle {
    /// A key that always has this word.
    fn always(word: u64) -> Fickle {
        Fickle(word, word)
    }
}

impl Key for Fickle {
    const BITS: u32 = u64::BITS;

    fn encode(self) -> u64 {
        if WAS_ASKED.with(|was_asked| was_asked.replace(true)) {
            self.1
        } else {
            self.0
        }
    }

    fn decode(word: u64) -> Fickle {
        Fickle::always(word)
    }
}

type FickleHandle = KeyedMapHandle<Fickle, &'static str>;

/// Whoever takes out what the call put in waits for its reader: so it stands at the key that the wait is for.
fn is_waited_for(waiter: Waiter, put: impl Fn(&mut FickleHandle, Fickle)) {
    let map = KeyedMap::build(Index::builder(100, 2).waiter(waiter)).unwrap();
    let (mut reader, mut writer) = (map.handle().unwrap(), map.handle().unwrap());
    writer.insert(Fickle::always(5), "five").unwrap();
    writer.insert(Fickle::always(6), "six").unwrap();
    WAS_ASKED.with(|was_asked| was_asked.set(false));
    put(&mut writer, Fickle(5, 6));
    let words = [5, 6, 7, 8].map(Fickle::always);
    let at = words.into_iter().find(|word| reader.get(*word).unwrap().map_or(false, |value| *value == "new")).unwrap();
    let is_out = AtomicBool::new(false);
    thread::scope(|scope| {
        let value = reader.get(at).unwrap();
        let writer = scope.spawn(|| {
            assert_eq!(writer.remove(at).unwrap(), Some("new"));
            is_out.store(true, SeqCst);
        });
        thread::sleep(Duration::from_millis(50));
        assert!(!is_out.load(SeqCst), "it was taken out under a reader");
        drop(value);
        writer.join().unwrap();
    });
}

#[test]
fn what_a_key_that_lies_put_in_is_waited_for() {
    for waiter in waiters() {
        is_waited_for(waiter, |writer, Fickle(_, other)| writer.insert(Fickle(7, other + 2), "new").unwrap());
        is_waited_for(waiter, |writer, key| assert_eq!(writer.replace(key, "new").unwrap(), "five"));
        is_waited_for(waiter, |writer, key| assert_eq!(writer.upsert(key, "new").unwrap(), Some("five")));
        is_waited_for(waiter, |writer, key| assert_eq!(writer.update(key, |_| "new").unwrap(), Some("five")));
    }
}

#[test]
fn a_key_that_lies_is_safe() {
    for waiter in waiters() {
        read_and_update(Index::builder(600, 4).waiter(waiter), Keys { of: |_| Liar, count: 1, lie: true });
    }
}

#[test]
fn what_a_key_that_lies_put_in_is_found_by_lists_and_dropped() {
    let count = Arc::new(AtomicUsize::new(0));
    let map = KeyedMap::build(Index::builder(100, 2)).unwrap();
    let mut handle = map.handle().unwrap();
    (0..100).for_each(|number| drop(handle.upsert(Liar, Counted::new(number, &count)).unwrap()));
    assert_eq!((handle.len(), handle.keys(..).unwrap().len()), (Ok(4), 4));
    assert_eq!(handle.retain(.., |Liar, value| value.key % 2 == 0).unwrap() + handle.len().unwrap(), 4);
    drop(handle.pop_last().unwrap());
    assert!(handle.clear().unwrap() <= 3);
    assert_eq!(handle.is_empty(), Ok(true));
    handle.upsert(Liar, Counted::new(0, &count)).unwrap();
    drop((handle, map));
    assert_eq!(count.load(SeqCst), 0);
}
