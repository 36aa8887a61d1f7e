//! Calls of an index without a handle in hand.

use citrus_map::{Error, Index, Lent, Waiter};
use std::panic::{catch_unwind, AssertUnwindSafe};
use std::thread;

fn sent<T: Send>(_: &T) {}

/// A handle's cookie tells its place, and one for no keys nothing else of it.
fn place_of(lent: &Lent) -> String {
    format!("{:?}", lent.begin(5..5).unwrap())
}

#[test]
fn each_call_answers_as_a_handle() {
    for waiter in [Waiter::Eer, Waiter::Domain, Waiter::Deer] {
        let index = Index::builder(100, 2).waiter(waiter).build().unwrap();
        assert_eq!(index.insert(5, 50), Ok(true));
        assert_eq!(index.insert(5, 51), Ok(false));
        assert_eq!(index.get(5), Ok(Some(50)));
        assert_eq!(index.contains_key(6), Ok(false));
        assert_eq!(index.replace(5, 52), Ok(Some(50)));
        assert_eq!(index.compare_exchange(5, 1, 53), Ok(Err(Some(52))));
        assert_eq!(index.compare_exchange(5, 52, 53), Ok(Ok(52)));
        assert_eq!(index.update(5, |value| value + 1), Ok(Some(53)));
        assert_eq!(index.upsert(5, 55), Ok(Some(54)));
        assert_eq!(index.upsert(7, 70), Ok(None));
        assert_eq!(index.lend().unwrap().list(..), Ok(vec![(5, 55), (7, 70)]));
        assert_eq!(index.take(7, 71), Ok(Err(Some(70))));
        assert_eq!(index.take(7, 70), Ok(Ok(70)));
        assert_eq!(index.take(7, 70), Ok(Err(None)));
        assert_eq!(index.remove_if(5, |value| value != 55), Ok(None));
        assert_eq!(index.remove(5), Ok(Some(55)));
        assert_eq!(index.remove(5), Ok(None));
    }
}

#[test]
fn handles_run_out_and_come_back() {
    let index = Index::new(100, 3).unwrap();
    let (kept, one, other) = (index.handle().unwrap(), index.lend().unwrap(), index.lend().unwrap());
    assert_eq!(index.free_handles(), 0);
    assert_eq!(index.get(5), Err(Error::NoHandle));
    assert_eq!(index.lend().err(), Some(Error::NoHandle));
    assert_eq!(index.handle().err(), Some(Error::NoHandle));
    drop(one);
    assert_eq!(index.get(5), Ok(None));
    drop((kept, other));
    assert_eq!(index.free_handles(), 3);
}

#[test]
fn a_thread_is_lent_its_handle_again() {
    let index = Index::new(100, 4).unwrap();
    let mine = place_of(&index.lend().unwrap());
    assert_eq!(place_of(&index.lend().unwrap()), mine);
    let others: Vec<Index> = (0..20).map(|_| Index::new(10, 1).unwrap()).collect();
    assert!(others.iter().all(|other| other.insert(1, 10) == Ok(true)));
    assert_eq!(place_of(&index.lend().unwrap()), mine);
    let kept = index.lend().unwrap();
    let next = place_of(&index.lend().unwrap());
    assert_ne!(next, mine);
    assert_eq!(place_of(&index.lend().unwrap()), next);
    drop(kept);
}

#[test]
fn a_call_that_panics_gives_its_handle_back() {
    let index = Index::new(100, 1).unwrap();
    index.insert(5, 50).unwrap();
    assert!(catch_unwind(AssertUnwindSafe(|| index.update(5, |_| panic!("this call is to end so")))).is_err());
    assert_eq!((index.get(5), index.free_handles()), (Ok(Some(50)), 1));
}

#[test]
fn what_is_lent_may_be_sent_and_forgotten() {
    let index = Index::new(100, 2).unwrap();
    let lent = index.lend().unwrap();
    sent(&lent);
    thread::scope(|scope| {
        scope.spawn(move || assert_eq!(lent.insert(5, 50), Ok(true)));
    });
    std::mem::forget(index.lend().unwrap());
    assert_eq!(index.get(5), Ok(Some(50)));
    assert_eq!(index.free_handles(), 1);
}

#[test]
fn an_update_is_refused_beside_a_section_of_its_thread() {
    let index = Index::new(100, 2).unwrap();
    index.insert(5, 50).unwrap();
    let mut handle = index.handle().unwrap();
    let held = handle.hold(5).unwrap();
    assert_eq!(index.insert(6, 60), Err(Error::Holds));
    assert_eq!(index.get(5), Ok(Some(50)));
    drop(held);
    assert_eq!(index.insert(6, 60), Ok(true));
}

/// More threads than handles, which come and go, of many indexes each, some of which are dropped meanwhile.
#[test]
fn threads_and_indexes_come_and_go() {
    for round in 0..20 {
        let all: Vec<Index> = (0..20).map(|_| Index::new(400, 4).unwrap()).collect();
        thread::scope(|scope| {
            for thread in 0..4 {
                let all = &all;
                scope.spawn(move || {
                    for key in 0..100 {
                        assert!(all.iter().all(|index| index.insert(4 * key + thread, round) == Ok(true)));
                    }
                });
            }
        });
        assert!(all.iter().all(|index| index.lend().unwrap().len() == Ok(400)));
        assert!(all.iter().all(|index| index.free_handles() == 4));
    }
}

#[test]
fn no_update_is_lost_where_threads_are_more_than_handles() {
    let index = Index::new(10, 2).unwrap();
    index.insert(5, 0).unwrap();
    let raised: u64 = thread::scope(|scope| {
        let work = || (0..2_000).filter(|_| index.update(5, |value| value + 1).map_err(|_| thread::yield_now()).is_ok()).count() as u64;
        let threads: Vec<_> = (0..8).map(|_| scope.spawn(work)).collect();
        threads.into_iter().map(|thread| thread.join().unwrap()).sum()
    });
    assert_eq!(index.get(5), Ok(Some(raised)));
    assert!(raised > 0);
}

/// A handle that is kept, and one for a call, are those of one index.
#[test]
fn handles_are_taken_and_lent_at_once() {
    let index = Index::new(100, 8).unwrap();
    thread::scope(|scope| {
        for thread in 0..4 {
            let index = &index;
            scope.spawn(move || {
                for _ in 0..1_000 {
                    let handle = index.handle().unwrap();
                    assert_eq!(index.insert(thread, thread), Ok(true));
                    assert_eq!(handle.remove(thread), Ok(Some(thread)));
                }
            });
        }
    });
    assert_eq!(index.free_handles(), 8);
}
