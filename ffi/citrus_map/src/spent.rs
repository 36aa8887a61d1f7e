//! Tests of handles that have few tickets, as no handle has that an index gives out: what a call does that is spent half way.

use crate::{Error, Handle, Index, Map, MapHandle};
use std::sync::atomic::{AtomicUsize, Ordering::SeqCst};
use std::sync::Arc;

/// The second handle of an index has so many tickets, and the first one all others.
fn short_index(tickets: u64) -> Index {
    Index::builder(100, 2).build_with(2 * tickets).unwrap()
}

#[test]
fn a_handle_without_tickets_is_spent_and_not_given_out_again() {
    let index = short_index(3);
    let (first, mut short) = (index.handle().unwrap(), index.handle().unwrap());
    assert_eq!(short.get(5), Err(Error::Spent));
    assert_eq!(short.insert(5, 50), Err(Error::Spent));
    assert_eq!(short.compare_exchange(5, 50, 51), Err(Error::Spent));
    assert_eq!(short.update(5, |value| value), Err(Error::Spent));
    assert_eq!(short.take(5, 50), Err(Error::Spent));
    assert_eq!(short.remove_if(5, |_| true), Err(Error::Spent));
    assert_eq!(short.remove(5), Err(Error::Spent));
    assert_eq!(short.pop_first(), Ok(None));
    assert_eq!((short.len(), short.first(), short.last()), (Ok(0), Ok(None), Ok(None)));
    assert_eq!(short.list(..), Ok(vec![]));
    assert!(matches!(short.hold(5), Ok(None)));
    assert_eq!(first.insert(5, 50), Ok(true));
    drop((first, short));
    assert_eq!(index.free_handles(), 1);
}

#[test]
fn a_wait_uses_a_ticket() {
    fn calls(handle: &Handle, call: impl Fn(&Handle) -> Result<(), Error>) -> usize {
        (0..100).take_while(|_| call(handle).is_ok()).count()
    }
    let index = short_index(40);
    let (_first, short) = (index.handle().unwrap(), index.handle().unwrap());
    assert_eq!(calls(&short, |handle| handle.wait(..)), 40);
    assert_eq!(short.wait(..), Err(Error::Spent));
    assert_eq!(short.begin(..), Err(Error::Spent));
}

struct Counted(Arc<AtomicUsize>);

impl Counted {
    fn new(count: &Arc<AtomicUsize>) -> Counted {
        count.fetch_add(1, SeqCst);
        Counted(Arc::clone(count))
    }
}

impl Drop for Counted {
    fn drop(&mut self) {
        self.0.fetch_sub(1, SeqCst);
    }
}

/// Makes calls until one is refused, and tells why.
fn work_until_spent(handle: &mut MapHandle<Counted>, count: &Arc<AtomicUsize>) -> Error {
    for key in 0..100 {
        let mut calls = || {
            handle.upsert(key, Counted::new(count))?;
            handle.upsert(key, Counted::new(count))?;
            handle.replace(key, Counted::new(count))?;
            handle.update(key, |_| Counted::new(count))?;
            handle.insert(key + 1, Counted::new(count))?;
            handle.retire(key)?;
            handle.remove(key + 1)?;
            handle.flush()
        };
        if let Err(cause) = calls() {
            return cause;
        }
    }
    panic!("it has tickets without end")
}

#[test]
fn what_a_spent_handle_took_out_is_dropped_with_the_map() {
    for tickets in 0..60 {
        let count = Arc::new(AtomicUsize::new(0));
        let map = Map::over(short_index(tickets));
        let (mut first, mut short) = (map.handle().unwrap(), map.handle().unwrap());
        first.insert(1_000, Counted::new(&count)).unwrap();
        assert_eq!(work_until_spent(&mut short, &count), Error::Spent);
        let there = first.keys(..).unwrap().len();
        assert!(count.load(SeqCst) >= there);
        // At most one was taken out by each call that was refused, and is kept.
        assert!(count.load(SeqCst) <= there + 2, "{tickets}");
        drop((first, short, map));
        assert_eq!(count.load(SeqCst), 0, "{tickets}");
    }
}
