//! The crate `dashmap`, from strings.

#[path = "../../../rust_strings/src/turns.rs"]
mod turns;

use dashmap::mapref::entry::Entry;
use dashmap::DashMap;
use std::process::ExitCode;
use std::sync::Arc;
use turns::{run, Client, Map};

/// A `String` is such a vector.
#[derive(Clone, Default)]
struct Shards(Arc<DashMap<Vec<u8>, u64>>);

impl Map for Shards {
    type Client = Shards;

    fn client(&self) -> Shards {
        self.clone()
    }
}

impl Client for Shards {
    fn get(&mut self, text: &[u8]) -> u64 {
        self.0.get(text).map_or(0, |value| *value)
    }

    fn range(&mut self, _low: &[u8], _most: usize) -> u64 {
        unimplemented!("it has no order")
    }

    fn insert(&mut self, text: &[u8], value: u64) -> bool {
        match self.0.entry(text.to_vec()) {
            Entry::Occupied(_) => false,
            Entry::Vacant(entry) => {
                entry.insert(value);
                true
            }
        }
    }

    fn remove(&mut self, text: &[u8]) -> bool {
        self.0.remove(text).is_some()
    }
}

fn main() -> ExitCode {
    run(|options| options.measure("DashMap", |_, _| Shards::default()))
}
