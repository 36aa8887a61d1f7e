//! How long single calls take, as bench/cpp/latency.hpp has it: each thread makes drawn operations, and notes the time of each one by its kind.
//! A line for each kind, of all threads together: `NAME,MIX,THREADS,KIND,COUNT,P50,P99,P999,LONGEST,ANSWERS`, in nanoseconds.

use crate::measuring::{fill, Client, Map, Options, Room};
use crate::mixes::{Drawn, Draws, Mix, Op};
use std::sync::Barrier;
use std::thread;
use std::time::Instant;

/// How many calls took so long, by buckets of an eighth of a power of two.
struct Histogram {
    counts: Vec<u64>,
    count: u64,
    longest: u64,
}

impl Histogram {
    fn new() -> Histogram {
        Histogram { counts: vec![0; 512], count: 0, longest: 0 }
    }

    fn note(&mut self, ns: u64) {
        self.counts[bucket_of(ns)] += 1;
        self.count += 1;
        self.longest = self.longest.max(ns);
    }

    fn add(&mut self, other: &Histogram) {
        self.counts.iter_mut().zip(&other.counts).for_each(|(count, more)| *count += more);
        self.count += other.count;
        self.longest = self.longest.max(other.longest);
    }

    /// The end of the bucket up to which so many of 1,000 calls are.
    fn part(&self, of_1000: u64) -> u64 {
        let mut seen = 0;
        let reached = |count: &u64| {
            seen += count;
            seen * 1000 >= self.count * of_1000
        };
        self.counts.iter().position(reached).map_or(self.longest, |bucket| end_of(bucket).min(self.longest))
    }
}

fn bucket_of(ns: u64) -> usize {
    if ns < 8 {
        return ns as usize;
    }
    let octave = 63 - ns.leading_zeros();
    octave as usize * 8 + (ns >> (octave - 3) & 7) as usize
}

fn end_of(bucket: usize) -> u64 {
    if bucket < 24 {
        return bucket as u64;
    }
    ((8 + bucket as u64 % 8 + 1) << (bucket / 8 - 3)) - 1
}

struct Latencies {
    get: Histogram,
    insert: Histogram,
    remove: Histogram,
    clock: Histogram,
    answers: u64,
}

impl Latencies {
    fn new() -> Latencies {
        Latencies { get: Histogram::new(), insert: Histogram::new(), remove: Histogram::new(), clock: Histogram::new(), answers: 0 }
    }

    fn and(mut self, other: Latencies) -> Latencies {
        self.get.add(&other.get);
        self.insert.add(&other.insert);
        self.remove.add(&other.remove);
        self.clock.add(&other.clock);
        self.answers = self.answers.wrapping_add(other.answers);
        self
    }

    fn tell(&self, begin: &str) {
        let mut update = Histogram::new();
        update.add(&self.insert);
        update.add(&self.remove);
        let kinds = [("get", &self.get), ("insert", &self.insert), ("remove", &self.remove), ("update", &update), ("clock", &self.clock)];
        for (kind, told) in kinds {
            let (half, most, nearly_all) = (told.part(500), told.part(990), told.part(999));
            println!("{begin},{kind},{},{half},{most},{nearly_all},{},{}", told.count, told.longest, self.answers);
        }
    }
}

/// One thread's calls, of which the first tenth isn't timed.
fn time_calls(client: &mut impl Client, mix: impl Mix, place: u64, operations: u64) -> Latencies {
    let mut told = Latencies::new();
    let mut draws = Draws(place);
    for _ in 0..operations / 10 {
        told.answers = told.answers.wrapping_add(client.call(mix.draw(&mut draws, place)));
    }
    for number in 0..operations {
        let op = mix.draw(&mut draws, place);
        let begun = Instant::now();
        let answer = client.call(op);
        let ended = Instant::now();
        let ns = (ended - begun).as_nanos() as u64;
        match op {
            Op::Get { .. } => told.get.note(ns),
            Op::Put { .. } if answer != 0 => told.insert.note(ns),
            Op::Del { .. } if answer != 0 => told.remove.note(ns),
            _ => (),
        }
        told.answers = told.answers.wrapping_add(answer);
        if number % 64 == 0 {
            told.clock.note(ended.elapsed().as_nanos() as u64);
        }
    }
    told
}

/// Of the mix and the threads that the options name.
pub fn measure_latency<M: Map>(options: &Options, name: &str, make: impl Fn(Room) -> M) {
    let mix = Drawn { gets: options.gets, keys: options.size.pairs };
    let threads = options.size.threads;
    let map = make(Room { keys: mix.keys, threads });
    fill(&mut map.client(), mix);
    let begin = Barrier::new(threads as usize);
    let told = thread::scope(|scope| {
        let (map, begin) = (&map, &begin);
        let start = |place| {
            scope.spawn(move || {
                let mut client = map.client();
                begin.wait();
                time_calls(&mut client, mix, place, options.operations)
            })
        };
        let started: Vec<_> = (0..threads).map(start).collect();
        started.into_iter().fold(Latencies::new(), |all, thread| all.and(thread.join().expect("no thread panics")))
    });
    told.tell(&format!("{name},{},{threads}", mix.name()));
}
