//! The crate `citrus_map`, with each waiter.
//! `rust_map [--operations N] [--seconds S] [--only SERIES] calls|keys|crowded` and `rust_map [--operations N] [--pairs N] [--threads N]
//! [--only SERIES] size` write the lines that the programs of bench/cpp write.

#[path = "../../btree/src/latency.rs"]
mod latency;
#[path = "../../btree/src/measuring.rs"]
mod measuring;
#[path = "../../btree/src/mixes.rs"]
mod mixes;
#[path = "../../btree/src/size.rs"]
mod size;

use citrus_map::{Handle, Index, Waiter};
use measuring::{measure_all, Client, Map, Options, Room};
use mixes::Op;
use std::process::ExitCode;

/// So that the tree of each run is the same.
const FIXED_SALT: u64 = 0x9e37_79b9_7f4a_7c15;

struct Tree(Index);

impl Tree {
    fn new(waiter: Waiter, room: Room) -> Tree {
        let handles = u32::try_from(room.threads).expect("few threads");
        let pairs = u32::try_from(room.keys).expect("keys that fit an index");
        Tree(Index::builder(pairs, handles).waiter(waiter).salt(FIXED_SALT).build().expect("memory for the index"))
    }
}

impl Map for Tree {
    type Client = Handle;

    fn client(&self) -> Handle {
        self.0.handle().expect("a handle for each thread")
    }
}

impl Client for Handle {
    fn call(&mut self, op: Op) -> u64 {
        let told = match op {
            Op::Get { key } => self.get(key).map(|found| found.unwrap_or(0)),
            Op::Del { key } => self.remove(key).map(|old| u64::from(old.is_some())),
            Op::Put { key, value } => self.insert(key, value).map(u64::from),
        };
        told.expect("a slot for each key")
    }
}

fn main() -> ExitCode {
    let options = match Options::from_words(std::env::args().skip(1)) {
        Some(options) => options,
        None => {
            eprintln!("usage: rust_map [--operations N] [--seconds S] [--only SERIES] calls|keys|crowded\n{}", measuring::SIZE_USAGE);
            return ExitCode::from(2);
        }
    };
    for (waiter, name) in [(Waiter::Eer, "first"), (Waiter::Domain, "second"), (Waiter::Deer, "third")] {
        let name = format!("citrus_map {name}");
        measure_all(&options, &name, |room| Tree::new(waiter, room));
    }
    ExitCode::SUCCESS
}
