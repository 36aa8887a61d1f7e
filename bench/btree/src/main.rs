//! A `BTreeMap` under one lock: std's `Mutex` and `RwLock`, and with the feature `parking_lot` those of that crate.
//! `btree [--operations N] [--seconds S] [--only SERIES] calls|keys|crowded`, `btree [--operations N] [--pairs N] [--threads N] [--only SERIES]
//! size` and `btree [--mix GETS] [--operations N] [--pairs N] [--threads N] [--only SERIES] latency` write the lines that the programs of
//! bench/cpp write.

mod latency;
mod maps;
mod measuring;
mod mixes;
mod size;

use maps::{Locked, Pairs};
use measuring::{measure_all, Options};
use std::process::ExitCode;

fn main() -> ExitCode {
    let Some(options) = Options::from_words(std::env::args().skip(1)) else {
        eprintln!("usage: btree [--operations N] [--seconds S] [--only SERIES] calls|keys|crowded\n{}", measuring::SIZE_USAGE);
        return ExitCode::from(2);
    };
    measure_all(&options, "BTreeMap under Mutex", |_| Locked::<std::sync::Mutex<Pairs>>::default());
    measure_all(&options, "BTreeMap under RwLock", |_| Locked::<std::sync::RwLock<Pairs>>::default());
    #[cfg(feature = "parking_lot")]
    {
        measure_all(&options, "BTreeMap under parking_lot Mutex", |_| Locked::<parking_lot::Mutex<Pairs>>::default());
        measure_all(&options, "BTreeMap under parking_lot RwLock", |_| Locked::<parking_lot::RwLock<Pairs>>::default());
    }
    ExitCode::SUCCESS
}
