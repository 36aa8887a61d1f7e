//! Many gets at once, in one thread and beside one that updates.

use citrus_map::{Error, Index, Waiter, MAX_HANDLES};
use std::thread;

const WAITERS: [Waiter; 3] = [Waiter::Eer, Waiter::Domain, Waiter::Deer];

#[test]
fn many_gets_answer_as_gets() {
    for waiter in WAITERS {
        let index = Index::builder(3000, 1).waiter(waiter).lanes(1).build().unwrap();
        let handle = index.handle().unwrap();
        for key in 0..3000 {
            assert_eq!(handle.insert(key * 2, key), Ok(true));
        }
        let mut lanes = index.lanes().unwrap();
        for count in [0, 1, 7, 8, 9, 1000] {
            let keys: Vec<u64> = (0..count).map(|i| i * 997 % 6000).collect();
            let wanted: Vec<Option<u64>> = keys.iter().map(|key| handle.get(*key).unwrap()).collect();
            assert_eq!(lanes.get_many(&keys), Ok(wanted));
        }
    }
}

#[test]
fn lanes_go_back() {
    let index = Index::builder(100, 2).lanes(1).build().unwrap();
    let lanes = index.lanes().unwrap();
    assert_eq!(index.lanes().err(), Some(Error::NoHandle));
    drop(lanes);
    assert!(index.lanes().is_ok());
    assert_eq!(Index::new(100, 2).unwrap().lanes().err(), Some(Error::NoHandle));
}

#[test]
fn lanes_take_the_places_of_handles() {
    assert!(Index::builder(100, MAX_HANDLES - 8).lanes(1).build().is_ok());
    assert_eq!(Index::builder(100, MAX_HANDLES - 7).lanes(1).build().err(), Some(Error::Handles));
    assert_eq!(Index::builder(100, 1).lanes(u32::MAX).build().err(), Some(Error::Handles));
}

/// A thread gives each key greater and greater values. No key is absent, and none is told a value below one that it was told before.
#[test]
fn values_rise_beside_a_writer() {
    for waiter in WAITERS {
        let index = Index::builder(64, 1).waiter(waiter).lanes(1).build().unwrap();
        let writer = index.handle().unwrap();
        for key in 0..64 {
            writer.insert(key, 0).unwrap();
        }
        let mut lanes = index.lanes().unwrap();
        thread::scope(|scope| {
            scope.spawn(move || {
                for value in 1..500 {
                    for key in 0..64 {
                        writer.upsert(key, value).unwrap();
                    }
                }
            });
            let keys: Vec<u64> = (0..64).collect();
            let mut before = vec![0; 64];
            for _ in 0..500 {
                let now: Vec<u64> = lanes.get_many(&keys).unwrap().into_iter().map(Option::unwrap).collect();
                assert!(now.iter().zip(&before).all(|(now, before)| now >= before));
                before = now;
            }
        });
    }
}
