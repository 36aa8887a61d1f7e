//! What a `Map` costs beside an `Index`, of one thread: the least of 25 rounds, in nanoseconds a line.

use citrus_map::{Index, Map};
use std::time::Instant;

const CALLS: u64 = 10_000;

fn least(what: &str, mut work: impl FnMut(u64)) {
    let rounds = (0..25).map(|_| {
        let began = Instant::now();
        (0..CALLS).for_each(&mut work);
        began.elapsed()
    });
    println!("{what}: {:.1}", rounds.min().unwrap_or_default().as_nanos() as f64 / CALLS as f64);
}

/// A key for each number, in no order.
fn key_of(number: u64) -> u64 {
    number.wrapping_mul(0x9e37_79b9_7f4a_7c15) >> 20
}

fn main() -> Result<(), citrus_map::Error> {
    let (index, map) = (Index::new(1_000, 1)?, Map::new(1_000, 1)?);
    let (mut numbers, mut values) = (index.handle()?, map.handle()?);
    for number in 0..100 {
        numbers.insert(key_of(number), number)?;
        values.insert(key_of(number), [number; 4])?;
    }
    let (there, free) = (|i| key_of(i % 100), |i| key_of(500 + i % 50));
    least("Index: get", |i| {
        let _ = numbers.get(there(i));
    });
    least("Index: hold, release", |i| {
        let _ = numbers.hold(there(i));
    });
    least("Index: enter, release", |i| {
        let _ = numbers.enter(there(i));
    });
    least("Map: get, read, drop", |i| {
        let _ = values.get(there(i)).map(|found| found.map(|value| value[2]));
    });
    least("Index: insert, remove", |i| {
        let _ = (numbers.insert(free(i), i), numbers.remove(free(i)));
    });
    least("Map: insert, remove", |i| {
        let _ = (values.insert(free(i), [i; 4]), values.remove(free(i)));
    });
    least("Map: insert, retire", |i| {
        let _ = (values.insert(free(i), [i; 4]), values.retire(free(i)));
    });
    Ok(())
}
