//! What a get costs by a handle that is kept, by one that the index lends for the call, and by one that is taken and dropped, of one thread and of
//! four at once: the least of 25 rounds, in nanoseconds of one thread's get.

use citrus_map::{Error, Index};
use std::thread;
use std::time::{Duration, Instant};

const KEYS: u64 = 20_000;
const CALLS: u64 = 20_000;

/// A key for each number, in no order.
fn key_of(number: u64) -> u64 {
    number.wrapping_mul(0x9e37_79b9_7f4a_7c15) >> 20
}

fn round(get: impl Fn(u64) -> Result<Option<u64>, Error>) -> Duration {
    let began = Instant::now();
    for i in 0..CALLS {
        assert!(get(key_of(i * 7919 % KEYS)).is_ok());
    }
    began.elapsed()
}

fn least(what: &str, threads: u64, rounds: impl Fn() -> Duration + Sync) {
    let least = thread::scope(|scope| {
        let of_a_thread = || (0..25).map(|_| rounds()).min();
        let running: Vec<_> = (0..threads).map(|_| scope.spawn(of_a_thread)).collect();
        running.into_iter().filter_map(|thread| thread.join().ok().flatten()).max()
    });
    println!("{what}, {threads} at once: {:.0}", least.unwrap_or_default().as_nanos() as f64 / CALLS as f64);
}

fn main() -> Result<(), Error> {
    let index = Index::new(KEYS as u32, 4)?;
    (0..KEYS).try_for_each(|number| index.insert(key_of(number), number).map(drop))?;
    for threads in [1, 4] {
        least("kept", threads, || index.handle().map_or(Duration::MAX, |handle| round(|key| handle.get(key))));
        least("lent", threads, || round(|key| index.get(key)));
        least("taken", threads, || round(|key| index.handle()?.get(key)));
    }
    Ok(())
}
