//! The crate's `StringMap`, and a `BTreeMap` under a lock of readers and writers.

mod turns;

use citrus_map::{Index, StringMap, StringMapHandle};
use std::collections::btree_map::Entry;
use std::collections::BTreeMap;
use std::process::ExitCode;
use std::sync::{Arc, PoisonError, RwLock};
use turns::{run, Client, Map};

/// So that the tree of each run is the same.
const FIXED_SALT: u64 = 0x9e37_79b9_7f4a_7c15;

struct Citrus(StringMap<u64>);

impl Citrus {
    fn new(pairs: usize, threads: usize) -> Citrus {
        let pairs = u32::try_from(pairs).expect("strings that fit an index");
        let handles = u32::try_from(threads).expect("few threads");
        Citrus(StringMap::build(Index::builder(pairs, handles).salt(FIXED_SALT)).expect("memory for the map"))
    }
}

impl Map for Citrus {
    type Client = StringMapHandle<u64>;

    fn client(&self) -> StringMapHandle<u64> {
        self.0.handle().expect("a handle for each thread")
    }
}

impl Client for StringMapHandle<u64> {
    fn get(&mut self, text: &[u8]) -> u64 {
        StringMapHandle::get(self, text).expect("a call that isn't refused").map_or(0, |value| *value)
    }

    fn range(&mut self, low: &[u8], most: usize) -> u64 {
        let mut sum = 0_u64;
        self.for_first(low.., most, |text, value| sum = sum.wrapping_add(value + text.len() as u64)).expect("memory for a list");
        sum
    }

    fn insert(&mut self, text: &[u8], value: u64) -> bool {
        StringMapHandle::insert(self, text, value).is_ok()
    }

    fn remove(&mut self, text: &[u8]) -> bool {
        self.retire(text).expect("a call that isn't refused")
    }

    fn settle(&mut self) {
        self.flush().expect("a call that isn't refused");
    }
}

/// A `String` is such a vector.
type Pairs = BTreeMap<Vec<u8>, u64>;

#[derive(Clone, Default)]
struct Locked(Arc<RwLock<Pairs>>);

impl Map for Locked {
    type Client = Locked;

    fn client(&self) -> Locked {
        self.clone()
    }
}

impl Client for Locked {
    fn get(&mut self, text: &[u8]) -> u64 {
        self.0.read().unwrap_or_else(PoisonError::into_inner).get(text).copied().unwrap_or(0)
    }

    fn range(&mut self, low: &[u8], most: usize) -> u64 {
        let pairs = self.0.read().unwrap_or_else(PoisonError::into_inner);
        let from_low = (std::ops::Bound::Included(low), std::ops::Bound::Unbounded);
        pairs.range::<[u8], _>(from_low).take(most).fold(0, |sum, (text, value)| sum.wrapping_add(value + text.len() as u64))
    }

    fn insert(&mut self, text: &[u8], value: u64) -> bool {
        match self.0.write().unwrap_or_else(PoisonError::into_inner).entry(text.to_vec()) {
            Entry::Occupied(_) => false,
            Entry::Vacant(entry) => {
                entry.insert(value);
                true
            }
        }
    }

    fn remove(&mut self, text: &[u8]) -> bool {
        self.0.write().unwrap_or_else(PoisonError::into_inner).remove(text).is_some()
    }
}

fn main() -> ExitCode {
    run(|options| {
        options.measure("StringMap", Citrus::new)?;
        options.measure("BTreeMap under RwLock", |_, _| Locked::default())
    })
}
