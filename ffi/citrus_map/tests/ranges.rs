//! Ranges from both ends, and the pairs at the ends.

mod common;

use citrus_map::{Error, Handle, Index, KeyedIndex, Range, Waiter};
use common::{draws_of, Draws, Over};
use std::collections::BTreeMap;
use std::sync::atomic::{AtomicBool, Ordering::SeqCst};
use std::thread;

const WAITERS: [Waiter; 3] = [Waiter::Eer, Waiter::Domain, Waiter::Deer];

fn filled(keys: impl Iterator<Item = u64>) -> (Index, BTreeMap<u64, u64>) {
    let index = Index::new(5_000, 5).unwrap();
    let model: BTreeMap<_, _> = keys.map(|key| (key, !key)).collect();
    model.iter().for_each(|(key, value)| assert_eq!(index.insert(*key, *value), Ok(true)));
    (index, model)
}

/// Both are gone through from the same ends, as they are drawn, and say the same, also behind their end.
fn is_gone_through_as(mut range: Range, mut model: impl DoubleEndedIterator<Item = (u64, u64)>, draws: &mut Draws) {
    let mut run = 0;
    let mut from_below = true;
    loop {
        if run == 0 {
            (from_below, run) = (draws.below(2) == 0, 1 + draws.below(1_500));
        }
        run -= 1;
        let (told, wanted) = if from_below { (range.next(), model.next()) } else { (range.next_back(), model.next_back()) };
        assert_eq!(told, wanted.map(Ok));
        if wanted.is_none() {
            break;
        }
    }
    assert_eq!((range.next(), range.next_back()), (None, None));
}

#[test]
fn ranges_are_gone_through_from_both_ends_as_those_of_std() {
    let mut draws = draws_of(0);
    for count in [0, 1, 2, 999, 1_000, 1_001, 1_999, 2_000, 2_001, 3_500] {
        let (index, model) = filled((0..count).map(|number| number * (u64::MAX / count.max(2))).chain((count > 2).then_some(u64::MAX)));
        let handle = index.handle().unwrap();
        let pairs = |(key, value): (&u64, &u64)| (*key, *value);
        is_gone_through_as(handle.iter(), model.iter().map(pairs), &mut draws);
        is_gone_through_as(index.iter(), model.iter().map(pairs), &mut draws);
        for _ in 0..10 {
            let (one, other) = (draws.draw(), draws.draw());
            let (low, high) = (one.min(other), one.max(other));
            is_gone_through_as(handle.range(low..high), model.range(low..high).map(pairs), &mut draws);
            is_gone_through_as(handle.range(low..), model.range(low..).map(pairs), &mut draws);
            is_gone_through_as(index.range(..=high), model.range(..=high).map(pairs), &mut draws);
            assert_eq!(handle.len_in(low..=high), Ok(model.range(low..=high).count()));
        }
        assert!(handle.range(..).rev().map(Result::unwrap).eq(model.iter().rev().map(pairs)));
        assert_eq!(handle.range(5..5).next_back(), None);
        assert_eq!((handle.len_in(5..5), handle.len_in(..), index.len()), (Ok(0), Ok(model.len()), Ok(model.len())));
    }
}

#[test]
fn ranges_by_keys_descend_too() {
    let index = KeyedIndex::<i32>::new(100, 1).unwrap();
    for key in -20..20 {
        index.insert(key, 7).unwrap();
    }
    let mut keys = index.range(-3..=2).map(|pair| pair.unwrap().0);
    assert_eq!((keys.next(), keys.next_back(), keys.next_back()), (Some(-3), Some(2), Some(1)));
    assert!(keys.eq([-2, -1, 0]));
    assert_eq!(
        (index.pop_first_from(-1), index.pop_last_to(-2), index.last_to(-2)),
        (Ok(Some((-1, 7))), Ok(Some((-2, 7))), Ok(Some((-3, 7))))
    );
    assert!((&index).into_iter().rev().map(|pair| pair.unwrap().0).eq((0..20).rev().chain((-20..-2).rev())));
}

#[test]
fn what_comes_between_the_ends_is_seen_once() {
    let (index, _) = filled(0..3_000);
    let mut range = index.range(..);
    assert_eq!((range.next(), range.next_back()), (Some(Ok((0, !0))), Some(Ok((2_999, !2_999)))));
    // In the pages of both ends nothing is seen of it, and all of it between.
    for key in [1, 500, 999, 1_000, 1_500, 1_999, 2_000, 2_500] {
        assert_eq!(index.remove(key), Ok(Some(!key)));
    }
    let left: Vec<_> = range.map(|pair| pair.unwrap().0).collect();
    assert!(left.into_iter().eq((1..2_999).filter(|key| ![1_000, 1_500, 1_999].contains(key))));
}

#[test]
fn a_range_of_an_index_has_no_handle_between_its_pages() {
    let index = Index::new(5_000, 1).unwrap();
    for key in 0..3_000 {
        index.insert(key, key).unwrap();
    }
    for pair in index.range(500..2_500).rev() {
        let (key, value) = pair.unwrap();
        assert_eq!(index.remove(key), Ok(Some(value)));
    }
    assert_eq!(index.len(), Ok(1_000));
    let (mut range, mut other) = (index.range(..), index.range(..));
    assert_eq!(range.next_back(), Some(Ok((2_999, 2_999))));
    let only = index.handle().unwrap();
    assert_eq!((other.next(), other.next(), other.next_back()), (Some(Err(Error::NoHandle)), None, None));
    // The rest of a page is told, and then the error, behind which there is nothing at either end.
    assert_eq!(range.next_back(), Some(Ok((2_998, 2_998))));
    assert_eq!((range.next(), range.next_back(), range.next()), (Some(Ok((0, 0))), Some(Ok((2_997, 2_997))), Some(Ok((1, 1)))));
    drop(only);
}

#[test]
fn an_error_is_the_last_item_at_either_end() {
    let (index, _) = filled(0..3_500);
    let handles: Vec<_> = (0..4).map(|_| index.handle().unwrap()).collect();
    for from_below in [true, false] {
        let mut range = index.range(..);
        assert!(range.next().is_some() && range.next_back().is_some());
        let last = index.handle().unwrap();
        let told: Vec<_> = if from_below { range.by_ref().take(1_000).collect() } else { range.by_ref().rev().take(1_000).collect() };
        assert_eq!(told.iter().filter(|pair| pair.is_ok()).count(), 999);
        assert_eq!(told.last(), Some(&Err(Error::NoHandle)));
        assert_eq!((range.next(), range.next_back()), (None, None));
        drop(last);
    }
    drop(handles);
}

#[test]
fn the_calls_of_ends_are_those_of_a_handle() {
    let index = Index::new(100, 1).unwrap();
    assert_eq!((index.is_empty(), index.len(), index.first(), index.last()), (Ok(true), Ok(0), Ok(None), Ok(None)));
    assert_eq!(
        (index.pop_first(), index.pop_last(), index.pop_first_from(0), index.pop_last_to(u64::MAX)),
        (Ok(None), Ok(None), Ok(None), Ok(None))
    );
    for key in [0, 10, 20, 30, 40, u64::MAX] {
        assert_eq!(index.insert(key, !key), Ok(true));
    }
    let pair = |key: u64| Ok(Some((key, !key)));
    assert_eq!((index.first(), index.last(), index.first_from(11), index.last_to(39)), (pair(0), pair(u64::MAX), pair(20), pair(30)));
    assert_eq!((index.list(10..=20), index.len_in(10..=20), index.len_in(41..)), (Ok(vec![(10, !10), (20, !20)]), Ok(2), Ok(1)));
    assert_eq!((index.pop_first_from(11), index.pop_last_to(29), index.pop_last_to(29)), (pair(20), pair(10), pair(0)));
    assert_eq!((index.pop_last_to(29), index.pop_first_from(41), index.pop_first_from(41)), (Ok(None), pair(u64::MAX), Ok(None)));
    assert_eq!((index.pop_first(), index.pop_last(), index.is_empty()), (pair(30), pair(40), Ok(true)));
}

/// Puts odd keys in and takes them out until it is over. Even keys stay.
fn change_odd_keys(handle: &Handle, keys: u64, thread: u64, is_over: &AtomicBool) {
    let mut draws = draws_of(thread);
    while !is_over.load(SeqCst) {
        let key = draws.below(keys / 2) * 2 + 1;
        let _ = if draws.below(2) == 0 { handle.insert(key, !key).is_ok() } else { handle.remove(key).is_ok() };
    }
}

/// From both ends keys go towards each other, none twice, each with its value, and each even one comes.
fn go_through_beside_writers(mut range: Range, keys: u64, draws: &mut Draws) {
    let (mut below, mut above) = (None, None);
    let mut even = 0;
    loop {
        let from_below = draws.below(2) == 0;
        for _ in 0..1 + draws.below(700) {
            let (key, value) = match if from_below { range.next() } else { range.next_back() } {
                Some(pair) => pair.unwrap(),
                None => {
                    assert_eq!(even, keys / 2);
                    assert_eq!((range.next(), range.next_back()), (None, None));
                    return;
                }
            };
            assert!(below < Some(key) && key < above.unwrap_or(keys) && value == !key);
            even += u64::from(key % 2 == 0);
            if from_below {
                below = Some(key);
            } else {
                above = Some(key);
            }
        }
    }
}

#[test]
fn beside_writers_the_ends_meet_and_what_stays_comes_once() {
    const KEYS: u64 = 4_000;
    for waiter in WAITERS {
        let index = Index::builder(KEYS as u32, 4).waiter(waiter).build().unwrap();
        for key in (0..KEYS).step_by(2) {
            index.insert(key, !key).unwrap();
        }
        let is_over = AtomicBool::new(false);
        thread::scope(|scope| {
            for thread in 1..4 {
                let (handle, is_over) = (index.handle().unwrap(), &is_over);
                scope.spawn(move || change_odd_keys(&handle, KEYS, thread, is_over));
            }
            let _over = Over(&is_over);
            let mut draws = draws_of(9);
            for _ in 0..30 {
                go_through_beside_writers(index.range(..), KEYS, &mut draws);
            }
        });
    }
}

#[test]
fn threads_pop_each_pair_once() {
    const PAIRS: u64 = 8_000;
    for waiter in WAITERS {
        let index = Index::builder(PAIRS as u32, 4).waiter(waiter).build().unwrap();
        for key in 0..PAIRS {
            index.insert(key, !key).unwrap();
        }
        let popped: Vec<Vec<_>> = thread::scope(|scope| {
            let poppers: Vec<_> = (0..4)
                .map(|number| {
                    let handle = index.handle().unwrap();
                    scope.spawn(move || {
                        let pop = || if number % 2 == 0 { handle.pop_first() } else { handle.pop_last() };
                        std::iter::from_fn(|| pop().unwrap()).collect()
                    })
                })
                .collect();
            poppers.into_iter().map(|popper| popper.join().unwrap()).collect()
        });
        for (number, pairs) in popped.iter().enumerate() {
            // Nobody puts any in, so what a thread pops at one end goes one way.
            assert!(pairs.windows(2).all(|two| (two[0].0 < two[1].0) == (number % 2 == 0)));
        }
        let mut all: Vec<_> = popped.into_iter().flatten().collect();
        all.sort_unstable();
        assert!(all.into_iter().eq((0..PAIRS).map(|key| (key, !key))));
        assert_eq!(index.is_empty(), Ok(true));
    }
}
