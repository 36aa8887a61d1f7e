//! Keys of many types: each call answers as a `BTreeMap` of the keys' numbers, in one thread and in several.

mod common;
#[path = "common/order.rs"]
mod order;

use citrus_map::{Guard, Index, Key, KeyedHandle, KeyedIndex, KeyedMap, KeyedMapHandle, Waiter};
use common::draws_of;
use order::{fit_one_order, Call, Told};
use std::cell::Cell;
use std::collections::BTreeMap;
use std::fmt::Debug;
use std::net::Ipv4Addr;
use std::ops::Bound;
use std::sync::atomic::{AtomicU64, Ordering::SeqCst};
use std::thread;

const WAITERS: [Waiter; 3] = [Waiter::Eer, Waiter::Domain, Waiter::Deer];

/// So many keys there are of each type.
const KEYS: u64 = 48;

/// A type of keys, which ascend with their numbers.
trait Numbered: Key + Debug + Send {
    fn of(number: u64) -> Self;

    fn is(self, other: Self) -> bool;

    fn number(self) -> u64 {
        (0..KEYS).find(|number| self.is(Self::of(*number))).unwrap_or(KEYS)
    }
}

macro_rules! numbered {
    ($($type:ty: $number:ident => $key:expr;)*) => {$(
        impl Numbered for $type {
            fn of($number: u64) -> $type {
                $key
            }

            fn is(self, other: $type) -> bool {
                self == other
            }
        }
    )*};
}

numbered! {
    u64: number => number << 58;
    i64: number => (number as i64 - 24) * (1 << 58);
    i8: number => (number as i16 * 5 - 128) as i8;
    char: number => if number == 0 { '\0' } else if number == KEYS - 1 { char::MAX } else { char::from(b'0' + number as u8) };
    Ipv4Addr: number => Ipv4Addr::new((number / 24) as u8 * 255, 0, (number / 12 % 2) as u8, (number % 12) as u8 * 23);
    (i32, f32): number => (number as i32 / 6 - 4, (number % 6) as f32 - 2.5);
    (bool, char, i16): number => (number >= 24, ['A', 'a', 'ä'][number as usize / 8 % 3], ((number % 8) as i32 * 8_000 - 30_000) as i16);
    [u8; 3]: number => [(number / 12) as u8, (number / 4 % 3) as u8 * 127, number as u8 % 4];
    UserId: number => UserId(number as u32);
}

/// -0 stands for 0, and the last key is no number.
impl Numbered for f64 {
    fn of(number: u64) -> f64 {
        match number {
            0 => f64::NEG_INFINITY,
            24 => -0.0,
            46 => f64::INFINITY,
            47 => -f64::NAN,
            _ => (number as f64 - 24.0).powi(7) * 1e200,
        }
    }

    fn is(self, other: f64) -> bool {
        self == other || self.is_nan() && other.is_nan()
    }
}

/// A type of a user's own.
#[derive(Clone, Copy, Debug, PartialEq)]
struct UserId(u32);

impl Key for UserId {
    const BITS: u32 = u32::BITS;

    fn encode(self) -> u64 {
        self.0.encode()
    }

    fn decode(word: u64) -> UserId {
        UserId(Key::decode(word))
    }
}

/// Runs a test of keys of each type.
macro_rules! with_each_type {
    ($test:ident) => {
        for waiter in WAITERS {
            $test::<u64>(waiter);
            $test::<i64>(waiter);
            $test::<i8>(waiter);
            $test::<char>(waiter);
            $test::<f64>(waiter);
            $test::<Ipv4Addr>(waiter);
            $test::<(i32, f32)>(waiter);
            $test::<(bool, char, i16)>(waiter);
            $test::<[u8; 3]>(waiter);
            $test::<UserId>(waiter);
        }
    };
}

type Model = BTreeMap<u64, u64>;

fn by_numbers<K: Numbered>(pairs: Vec<(K, u64)>) -> Vec<(u64, u64)> {
    pairs.into_iter().map(|(key, value)| (key.number(), value)).collect()
}

fn by_number<K: Numbered>(pair: Option<(K, u64)>) -> Option<(u64, u64)> {
    pair.map(|(key, value)| (key.number(), value))
}

fn pairs_of<'m>(pairs: impl Iterator<Item = (&'m u64, &'m u64)>) -> Vec<(u64, u64)> {
    pairs.map(|(key, value)| (*key, *value)).collect()
}

/// A call for one key.
fn call_for_a_key<K: Numbered>(handle: &KeyedHandle<K>, number: u64, value: u64, which: u64, model: &mut Model) {
    let (key, has) = (K::of(number), model.get(&number).copied());
    match which {
        0 | 1 | 2 => {
            assert_eq!(handle.insert(key, value), Ok(has.is_none()));
            model.entry(number).or_insert(value);
        }
        3 => assert_eq!(handle.upsert(key, value), Ok(model.insert(number, value))),
        4 => {
            assert_eq!(handle.replace(key, value), Ok(has));
            model.entry(number).and_modify(|its| *its = value);
        }
        5 => {
            let expected = has.unwrap_or(value);
            assert_eq!(handle.compare_exchange(key, expected + 1, value), Ok(Err(has)));
            assert_eq!(handle.compare_exchange(key, expected, value), Ok(has.map_or(Err(None), Ok)));
            model.entry(number).and_modify(|its| *its = value);
        }
        6 => {
            assert_eq!(handle.update(key, |its| its + 1), Ok(has));
            model.entry(number).and_modify(|its| *its += 1);
        }
        7 => assert_eq!(handle.remove(key), Ok(model.remove(&number))),
        8 => {
            let expected = has.unwrap_or(value);
            assert_eq!(handle.take(key, expected + 1), Ok(Err(has)));
            assert_eq!(handle.remove_if(key, |its| its != expected), Ok(None));
            assert_eq!(handle.take(key, expected), Ok(model.remove(&number).ok_or(None)));
        }
        _ => {
            assert_eq!(handle.get(key), Ok(has));
            assert_eq!(handle.contains_key(key), Ok(has.is_some()));
        }
    }
}

/// What a range of keys has, in each of the forms that a range may have.
fn look_at_a_range<K: Numbered>(handle: &KeyedHandle<K>, low: u64, high: u64, model: &Model) {
    let (least, most) = (K::of(low), K::of(high));
    assert_eq!(by_numbers(handle.list(least..=most).unwrap()), pairs_of(model.range(low..=high)));
    assert_eq!(by_numbers(handle.list(least..most).unwrap()), pairs_of(model.range(low..high)));
    assert_eq!(by_numbers(handle.list(..most).unwrap()), pairs_of(model.range(..high)));
    assert_eq!(by_numbers(handle.list(least..).unwrap()), pairs_of(model.range(low..)));
    assert_eq!(by_numbers(handle.list((Bound::Excluded(least), Bound::Unbounded)).unwrap()), pairs_of(model.range(low + 1..)));
    let paged: Vec<(K, u64)> = handle.range(least..=most).map(Result::unwrap).collect();
    assert_eq!(by_numbers(paged), pairs_of(model.range(low..=high)));
    let page = handle.page(least.., 3).unwrap();
    assert_eq!(by_numbers(page.pairs), pairs_of(model.range(low..).take(3)));
    assert_eq!(page.next.map(K::number), model.range(low..).nth(3).map(|(number, _)| *number));
    assert_eq!(handle.iter().count(), model.len());
    assert_eq!((handle.len(), handle.is_empty()), (Ok(model.len()), Ok(model.is_empty())));
}

fn look_at_ends<K: Numbered>(handle: &KeyedHandle<K>, number: u64, model: &Model) {
    let pair = |(key, value): (&u64, &u64)| (*key, *value);
    assert_eq!(by_number(handle.first().unwrap()), model.iter().next().map(pair));
    assert_eq!(by_number(handle.last().unwrap()), model.iter().next_back().map(pair));
    assert_eq!(by_number(handle.first_from(K::of(number)).unwrap()), model.range(number..).next().map(pair));
    assert_eq!(by_number(handle.last_to(K::of(number)).unwrap()), model.range(..=number).next_back().map(pair));
}

fn take_out<K: Numbered>(handle: &KeyedHandle<K>, low: u64, high: u64, model: &mut Model) {
    let first = model.iter().next().map(|(key, value)| (*key, *value));
    assert_eq!(by_number(handle.pop_first().unwrap()), first);
    first.map(|(key, _)| model.remove(&key));
    let last = model.iter().next_back().map(|(key, value)| (*key, *value));
    assert_eq!(by_number(handle.pop_last().unwrap()), last);
    last.map(|(key, _)| model.remove(&key));
    let goes = |number: u64| low <= number && number <= high && number % 3 == 0;
    let before = model.len();
    model.retain(|number, _| !goes(*number));
    assert_eq!(handle.retain(K::of(low)..=K::of(high), |key, _| key.number() % 3 != 0), Ok(before - model.len()));
}

fn calls_answer_as_a_model<K: Numbered>(waiter: Waiter) {
    let index = Index::builder(100, 1).waiter(waiter).build_keyed::<K>().unwrap();
    let mut handle = index.handle().unwrap();
    let (mut model, mut draws) = (Model::new(), draws_of(1));
    for value in 0..1_000 {
        let (number, other) = (draws.below(KEYS), draws.below(KEYS));
        let (low, high) = (number.min(other), number.max(other));
        match draws.below(14) {
            which @ 0..=9 => call_for_a_key(&handle, number, value, which, &mut model),
            10 => look_at_a_range(&handle, low, high, &model),
            11 => look_at_ends(&handle, number, &model),
            12 => take_out(&handle, low, high, &mut model),
            _ => {
                let held = handle.hold(K::of(number)).unwrap();
                assert_eq!(held.as_ref().map(|held| held.value()), model.get(&number).copied());
                assert!(held.map_or(true, |held| held.key().is(K::of(number))));
                assert!(handle.enter(K::of(number)).unwrap().key().is(K::of(number)));
                handle.wait(K::of(low)..=K::of(high)).unwrap();
                assert_eq!(handle.tidy(K::of(low)..=K::of(high), 1_000).unwrap().next.map(K::number), None);
            }
        }
    }
    assert_eq!(handle.clear(), Ok(model.len()));
}

#[test]
fn calls_of_a_handle_answer_as_a_model() {
    with_each_type!(calls_answer_as_a_model);
}

fn a_map_answers_as_a_model<K: Numbered>(waiter: Waiter) {
    let map = KeyedMap::<K, String>::build(Index::builder(100, 1).waiter(waiter)).unwrap();
    let mut handle = map.handle().unwrap();
    let mut model = BTreeMap::new();
    for number in (0..KEYS).rev() {
        handle.insert(K::of(number), number.to_string()).unwrap();
        model.insert(number, number.to_string());
    }
    let numbers = |keys: Vec<K>| keys.into_iter().map(K::number).collect::<Vec<_>>();
    assert_eq!(numbers(handle.keys(..).unwrap()), (0..KEYS).collect::<Vec<_>>());
    assert_eq!(numbers(handle.keys(K::of(5)..K::of(9)).unwrap()), [5, 6, 7, 8]);
    assert_eq!(numbers(handle.keys(K::of(9)..K::of(5)).unwrap()), []);
    for number in 0..KEYS {
        let guard = handle.get(K::of(number)).unwrap().unwrap();
        assert!(*guard == model[&number] && Guard::key(&guard).is(K::of(number)));
    }
    assert_eq!(handle.first_key_from(K::of(7)).unwrap().map(K::number), Some(7));
    assert_eq!(handle.last_key_to(K::of(7)).unwrap().map(K::number), Some(7));
    assert_eq!(handle.replace(K::of(7), "seven".to_string()).unwrap(), "7");
    assert_eq!(handle.upsert(K::of(7), "7".to_string()).unwrap(), Some("seven".to_string()));
    assert_eq!(handle.update(K::of(7), |text| text.repeat(2)).unwrap(), Some("7".to_string()));
    assert_eq!(handle.remove(K::of(7)).unwrap(), Some("77".to_string()));
    assert_eq!(handle.contains_key(K::of(7)), Ok(false));
    assert_eq!(handle.retire(K::of(8)), Ok(true));
    assert_eq!(handle.remove_if(K::of(9), |text| text != "9").unwrap(), None);
    assert_eq!(handle.remove_if(K::of(9), |text| text == "9").unwrap(), Some("9".to_string()));
    assert_eq!(handle.pop_first().unwrap().map(|(key, text)| (key.number(), text)), Some((0, "0".to_string())));
    assert_eq!(handle.pop_last().unwrap().map(|(key, _)| key.number()), Some(KEYS - 1));
    assert_eq!(handle.retain(K::of(10)..K::of(20), |key, text| key.number() % 2 == 0 && text.len() == 2), Ok(5));
    assert_eq!(handle.tidy(.., 1_000).unwrap().next.map(K::number), None);
    assert_eq!(handle.clear(), Ok(KEYS as usize - 10));
}

#[test]
fn calls_of_a_map_answer_as_a_model() {
    with_each_type!(a_map_answers_as_a_model);
}

/// The thread's keys are those whose numbers have its remainder. It knows what it must be told of these, beside the others' updates.
fn work_on_own_keys<K: Numbered>(index: &KeyedIndex<K>, thread: u64, threads: u64) {
    let handle = index.handle().unwrap();
    let (mut model, mut draws) = (Model::new(), draws_of(thread));
    for value in 0..600 {
        let number = draws.below(KEYS / threads) * threads + thread;
        call_for_a_key(&handle, number, value, draws.below(10), &mut model);
        if value % 50 == 0 {
            let there = by_numbers(handle.list(..).unwrap());
            assert!(there.iter().all(|(number, _)| *number < KEYS) && there.windows(2).all(|pair| pair[0].0 < pair[1].0));
            let mine: Model = there.into_iter().filter(|(number, _)| number % threads == thread).collect();
            assert_eq!(mine, model);
        }
    }
}

fn threads_are_told_what_they_did<K: Numbered>(waiter: Waiter) {
    let index = Index::builder(100, 4).waiter(waiter).build_keyed::<K>().unwrap();
    thread::scope(|scope| {
        for thread in 0..4 {
            let index = &index;
            scope.spawn(move || work_on_own_keys(index, thread, 4));
        }
    });
}

#[test]
fn each_thread_is_told_what_it_did_to_its_own_keys() {
    with_each_type!(threads_are_told_what_they_did);
}

/// What a thread was told on shared keys. Each value is the moment of its call's begin.
fn work_on_shared_keys<K: Numbered>(index: &KeyedIndex<K>, thread: u64, numbers: [u64; 3], clock: &AtomicU64) -> Vec<(u64, Call)> {
    let mut draws = draws_of(thread);
    let call = |_| {
        let number = numbers[draws.below(3) as usize];
        let key = K::of(number);
        let expected = index.get(key).unwrap().unwrap_or(0);
        let begin = clock.fetch_add(1, SeqCst);
        let told = match draws.below(8) {
            0 | 1 => Told::Get { found: index.get(key).unwrap() },
            2 => Told::Insert { value: begin, added: index.insert(key, begin).unwrap() },
            3 => Told::Replace { value: begin, old: index.replace(key, begin).unwrap() },
            4 => Told::Upsert { value: begin, old: index.upsert(key, begin).unwrap() },
            5 => Told::Compare { value: begin, expected, told: index.compare_exchange(key, expected, begin).unwrap() },
            6 => Told::Take { expected, told: index.take(key, expected).unwrap() },
            _ => Told::Remove { old: index.remove(key).unwrap() },
        };
        (number, Call { thread: thread as usize, begin, end: clock.fetch_add(1, SeqCst), told })
    };
    (0..600).map(call).collect()
}

fn replies_fit_one_order<K: Numbered>(waiter: Waiter) {
    let index = Index::builder(10, 4).waiter(waiter).build_keyed::<K>().unwrap();
    let (clock, numbers) = (AtomicU64::new(0), [0, KEYS / 2, KEYS - 1]);
    let told: Vec<(u64, Call)> = thread::scope(|scope| {
        let (index, clock) = (&index, &clock);
        let start = |thread| scope.spawn(move || work_on_shared_keys(index, thread, numbers, clock));
        let started: Vec<_> = (0..4).map(start).collect();
        started.into_iter().flat_map(|thread| thread.join().unwrap()).collect()
    });
    for number in numbers {
        let calls: Vec<Call> = told.iter().filter(|(its, _)| *its == number).map(|(_, call)| *call).collect();
        assert!(fit_one_order(&calls), "{waiter:?}, {:?}", K::of(number));
    }
}

#[test]
fn replies_on_shared_keys_fit_one_order() {
    with_each_type!(replies_fit_one_order);
}

#[test]
fn lanes_look_up_keys_of_a_type() {
    let index = Index::builder(100, 1).lanes(1).build_keyed::<f64>().unwrap();
    for (value, key) in (0..).zip([-1.5, 0.0, f64::NAN]) {
        index.insert(key, value).unwrap();
    }
    let mut lanes = index.lanes().unwrap();
    assert_eq!(lanes.get_many(&[-f64::NAN, 7.0, -0.0, -1.5]), Ok(vec![Some(2), None, Some(1), Some(0)]));
    assert_eq!(lanes.get_many(&[]), Ok(vec![]));
}

/// A key that counts how often it was made a word.
#[derive(Clone, Copy, Debug, PartialEq)]
struct Counting(i64);

thread_local!(static WORDS: Cell<usize> = Cell::new(0));

impl Key for Counting {
    const BITS: u32 = u64::BITS;

    fn encode(self) -> u64 {
        WORDS.with(|words| words.set(words.get() + 1));
        self.0.encode()
    }

    fn decode(word: u64) -> Counting {
        Counting(Key::decode(word))
    }
}

/// How many words a call makes.
fn words_of<T>(call: impl FnOnce() -> T) -> usize {
    WORDS.with(|words| words.set(0));
    drop(call());
    WORDS.with(Cell::get)
}

fn words_of_a_handle(handle: &mut KeyedHandle<Counting>) {
    let key = Counting(-5);
    assert_eq!(words_of(|| handle.insert(key, 50)), 1);
    assert_eq!(words_of(|| handle.get(key)), 1);
    assert_eq!(words_of(|| handle.contains_key(key)), 1);
    assert_eq!(words_of(|| handle.replace(key, 60)), 1);
    assert_eq!(words_of(|| handle.update(key, |value| value + 10)), 1);
    assert_eq!(words_of(|| handle.compare_exchange(key, 70, 80)), 1);
    assert_eq!(words_of(|| handle.take(key, 70)), 1);
    assert_eq!(words_of(|| handle.remove_if(key, |_| true)), 1);
    assert_eq!(words_of(|| handle.upsert(key, 90)), 1);
    assert_eq!(words_of(|| handle.list(key..=key)), 2);
    assert_eq!(words_of(|| handle.page(key.., 1)), 1);
    assert_eq!(words_of(|| handle.range(key..).count()), 1);
    assert_eq!(words_of(|| handle.wait(key..=key)), 2);
    assert_eq!(words_of(|| handle.tidy(key.., 1)), 1);
    assert_eq!(words_of(|| handle.first_from(key)), 1);
    assert_eq!(words_of(|| drop(handle.hold(key))), 1);
    // A section that was forgotten is left, and the call made again.
    std::mem::forget(handle.enter(key));
    assert_eq!(words_of(|| handle.get(key)), 1);
    assert_eq!(words_of(|| handle.retain(.., |_, _| true)), 0);
    assert_eq!(words_of(|| handle.pop_first()), 0);
}

fn words_of_a_map(handle: &mut KeyedMapHandle<Counting, u64>) {
    let key = Counting(-5);
    assert_eq!(words_of(|| handle.insert(key, 50)), 1);
    assert_eq!(words_of(|| handle.get(key).unwrap().map(|value| (Guard::key(&value), *value))), 1);
    assert_eq!(words_of(|| handle.contains_key(key)), 1);
    assert_eq!(words_of(|| handle.replace(key, 60)), 1);
    assert_eq!(words_of(|| handle.update(key, |value| value + 10)), 1);
    assert_eq!(words_of(|| handle.remove_if(key, |_| false)), 1);
    assert_eq!(words_of(|| handle.retire_if(key, |_| false)), 1);
    assert_eq!(words_of(|| handle.upsert(key, 90)), 1);
    assert_eq!(words_of(|| handle.keys(key..=key)), 2);
    assert_eq!(words_of(|| handle.retain(key.., |_, _| true)), 1);
    assert_eq!(words_of(|| handle.retire(key)), 1);
    assert_eq!(words_of(|| handle.insert(key, 50)), 1);
    assert_eq!(words_of(|| handle.pop_last()), 0);
}

#[test]
fn a_key_becomes_a_word_once() {
    let index = KeyedIndex::new(10, 2).unwrap();
    words_of_a_handle(&mut index.handle().unwrap());
    assert_eq!(words_of(|| index.insert(Counting(1), 10)), 1);
    words_of_a_map(&mut KeyedMap::new(10, 1).unwrap().handle().unwrap());
}
