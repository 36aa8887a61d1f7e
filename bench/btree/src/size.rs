//! One map of many pairs, as bench/cpp/size.hpp has it: how long it takes to make and to fill, what lookups and updates cost, and how much
//! memory it takes. Each thread has every so-many-th number for itself, so what all calls answer together is the same for each map.

use crate::measuring::{Client, Map, Options, Room};
use crate::mixes::{Draws, Op};
use std::fs::read_to_string;
use std::thread;
use std::time::Instant;

/// Updates come to as many pairs as there are at first, some more or less.
const SPARE_PAIRS: u64 = 100_000;

#[derive(Clone, Copy)]
pub struct Size {
    pub pairs: u64,
    pub threads: u64,
}

/// Numbers come as keys in no order, and each as another one (Steele, Lea, Flood, "Fast splittable pseudorandom number generators", 2014).
fn key_of_number(number: u64) -> u64 {
    let number = (number ^ (number >> 30)).wrapping_mul(0xbf58_476d_1ce4_e5b9);
    let number = (number ^ (number >> 27)).wrapping_mul(0x94d0_49bb_1331_11eb);
    number ^ (number >> 31)
}

/// In MB of 1,000,000 bytes what the system says under this name.
fn memory(name: &str) -> u64 {
    let status = read_to_string("/proc/self/status").unwrap_or_default();
    let kib = status.lines().find_map(|line| line.strip_prefix(name)?.split_whitespace().next()?.parse::<u64>().ok());
    kib.unwrap_or(0) * 1024 / 1_000_000
}

/// Runs the work of each thread; the sum of their answers, and nanoseconds an operation.
fn time_of_all<M: Map>(map: &M, size: Size, operations: u64, work: impl Fn(&mut M::Client, u64) -> u64 + Sync) -> (u64, f64) {
    let begun = Instant::now();
    let answers = thread::scope(|scope| {
        let start = |number| {
            let work = &work;
            scope.spawn(move || work(&mut map.client(), number))
        };
        let threads: Vec<_> = (0..size.threads).map(start).collect();
        threads.into_iter().fold(0_u64, |all, thread| all.wrapping_add(thread.join().expect("no thread panics")))
    });
    (answers, begun.elapsed().as_nanos() as f64 * size.threads as f64 / operations as f64)
}

fn fill_numbers(client: &mut impl Client, size: Size, thread: u64) -> u64 {
    let numbers = (thread..size.pairs).step_by(size.threads as usize);
    numbers.fold(0, |sum: u64, number| sum.wrapping_add(client.call(Op::Put { key: key_of_number(number), value: number + 1 })))
}

fn get_numbers(client: &mut impl Client, size: Size, operations: u64, thread: u64) -> u64 {
    let mut draws = Draws(thread);
    (0..operations).fold(0, |sum: u64, _| sum.wrapping_add(client.call(Op::Get { key: key_of_number(draws.draw() % size.pairs) })))
}

/// 90 of 100 are gets, 5 puts and 5 dels, of numbers of which half are there.
fn mix_numbers(client: &mut impl Client, size: Size, operations: u64, thread: u64) -> u64 {
    let mut draws = Draws(thread);
    (0..operations).fold(0, |sum: u64, _| {
        let kind = draws.draw() % 100;
        let number = draws.draw() % (2 * size.pairs / size.threads) * size.threads + thread;
        let key = key_of_number(number);
        let op = match kind {
            0..=89 => Op::Get { key },
            90..=94 => Op::Put { key, value: number + 1 },
            _ => Op::Del { key },
        };
        sum.wrapping_add(client.call(op))
    })
}

/// A line `NAME,pairs,threads,open_s,fill_ns,get_ns,mixed_ns,open_mb,most_mb,mb,answers`.
pub fn measure_size<M: Map>(options: &Options, name: &str, make: impl Fn(Room) -> M) {
    let size = options.size;
    let begun = Instant::now();
    let map = make(Room { keys: size.pairs + SPARE_PAIRS, threads: size.threads });
    let open_seconds = begun.elapsed().as_secs_f64();
    let open_memory = memory("VmHWM:");
    let each = options.operations;
    let (filled, fill) = time_of_all(&map, size, size.pairs, |client, thread| fill_numbers(client, size, thread));
    let (found, gets) = time_of_all(&map, size, each * size.threads, |client, thread| get_numbers(client, size, each, thread));
    let (told, mixed) = time_of_all(&map, size, each * size.threads, |client, thread| mix_numbers(client, size, each, thread));
    let answers = filled.wrapping_add(found).wrapping_add(told);
    let (most, now) = (memory("VmHWM:"), memory("VmRSS:"));
    let Size { pairs, threads } = size;
    println!("{name},{pairs},{threads},{open_seconds:.3},{fill:.1},{gets:.1},{mixed:.1},{open_memory},{most},{now},{answers}");
}
