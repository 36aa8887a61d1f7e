//! A cache of strings by id, each for a time. Readers take no lock, and one thread sweeps out what is past its time.

use citrus_map::{Error, Map, MapHandle};
use std::thread;
use std::time::{Duration, Instant};

struct Entry {
    text: String,
    until: Instant,
}

fn put(cache: &mut MapHandle<Entry>, id: u64, text: String, time: Duration) -> Result<(), Error> {
    // The entry before is dropped here, once nobody reads it.
    cache.upsert(id, Entry { text, until: Instant::now() + time })?;
    Ok(())
}

fn letters(cache: &mut MapHandle<Entry>, id: u64) -> Result<Option<usize>, Error> {
    Ok(cache.get(id)?.filter(|entry| entry.until > Instant::now()).map(|entry| entry.text.len()))
}

/// Takes out what is past its time, and nothing that another thread put in since; says how many that were. Their strings are dropped when nobody
/// reads them any more.
fn sweep(cache: &mut MapHandle<Entry>) -> Result<usize, Error> {
    cache.retain(.., |_, entry| entry.until > Instant::now())
}

fn main() -> Result<(), Error> {
    let cache = Map::new(1_000, 2)?;
    let mut mine = cache.handle()?;
    for id in 0..10 {
        put(&mut mine, id, format!("text {id}"), Duration::from_secs(3_600 * (id % 2)))?;
    }
    let swept = thread::scope(|scope| scope.spawn(|| sweep(&mut cache.handle()?)).join().unwrap())?;
    println!("{swept} swept; 3 has {:?} letters, 4 has {:?}", letters(&mut mine, 3)?, letters(&mut mine, 4)?);
    Ok(())
}
