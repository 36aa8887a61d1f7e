//! The crate `dashmap`, a hash map of shards under locks of their own: it has no order, so no ranges.
//! `dashmap_bench [--operations N] [--seconds S] [--only SERIES] calls|keys|crowded` and `dashmap_bench [--operations N] [--pairs N]
//! [--threads N] [--only SERIES] size` write the lines that the programs of bench/cpp write.

#[path = "../../btree/src/latency.rs"]
mod latency;
#[path = "../../btree/src/measuring.rs"]
mod measuring;
#[path = "../../btree/src/mixes.rs"]
mod mixes;
#[path = "../../btree/src/size.rs"]
mod size;

use dashmap::mapref::entry::Entry;
use dashmap::DashMap;
use measuring::{measure_all, Client, Map, Options};
use mixes::Op;
use std::process::ExitCode;
use std::sync::Arc;

struct Shards(Arc<DashMap<u64, u64>>);

impl Map for Shards {
    type Client = Shards;

    fn client(&self) -> Shards {
        Shards(Arc::clone(&self.0))
    }
}

impl Client for Shards {
    fn call(&mut self, op: Op) -> u64 {
        match op {
            Op::Get { key } => self.0.get(&key).map_or(0, |value| *value),
            Op::Del { key } => u64::from(self.0.remove(&key).is_some()),
            Op::Put { key, value } => match self.0.entry(key) {
                Entry::Occupied(_) => 0,
                Entry::Vacant(entry) => {
                    entry.insert(value);
                    1
                }
            },
        }
    }
}

fn main() -> ExitCode {
    let options = match Options::from_words(std::env::args().skip(1)) {
        Some(options) => options,
        None => {
            eprintln!("usage: dashmap_bench [--operations N] [--seconds S] [--only SERIES] calls|keys|crowded\n{}", measuring::SIZE_USAGE);
            return ExitCode::from(2);
        }
    };
    measure_all(&options, "DashMap", |_| Shards(Arc::new(DashMap::new())));
    ExitCode::SUCCESS
}
