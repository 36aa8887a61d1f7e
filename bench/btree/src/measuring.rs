//! Threads that make drawn operations on one map, timed: a line for each cell of a subject.

use crate::latency::measure_latency;
use crate::mixes::{Draws, Load, Mix, MostlyGets, Op, Uniform};
use crate::size::{measure_size, Size};
use std::thread;
use std::time::{Duration, Instant};

/// Its words for one map of many pairs, and for single calls.
pub const SIZE_USAGE: &str = "       [--operations N] [--pairs N] [--threads N] [--only SERIES] size
       [--mix GETS] [--operations N] [--pairs N] [--threads N] [--only SERIES] latency";

/// A map that threads share.
pub trait Map: Sync {
    type Client: Client;

    /// What a thread calls it by.
    fn client(&self) -> Self::Client;
}

pub trait Client {
    /// A found value, or 1 where the call changed something, else 0.
    fn call(&mut self, op: Op) -> u64;
}

/// What a map is made for. One that grows needs neither number.
#[derive(Clone, Copy)]
#[allow(dead_code)]
pub struct Room {
    pub keys: u64,
    pub threads: u64,
}

#[derive(Clone, Copy)]
pub enum Subject {
    Calls,
    Keys,
    Crowded,
    Size,
    Latency,
}

#[derive(Clone)]
pub struct Options {
    pub subject: Subject,
    /// Of each thread.
    pub operations: u64,
    /// A cell ends when it has passed.
    pub limit: Duration,
    /// The series that is measured, or all.
    pub only: Option<String>,
    /// How many of 100 single calls are gets.
    pub gets: u64,
    pub size: Size,
}

impl Options {
    pub fn from_words(mut words: impl Iterator<Item = String>) -> Option<Options> {
        let mut options = Options {
            subject: Subject::Calls,
            operations: 100_000,
            limit: Duration::from_secs(1),
            only: None,
            gets: 100,
            size: Size { pairs: 1_000_000, threads: 1 },
        };
        while let Some(word) = words.next() {
            match word.as_str() {
                "--operations" => options.operations = words.next()?.parse().ok()?,
                "--seconds" => options.limit = Duration::try_from_secs_f64(words.next()?.parse().ok()?).ok()?,
                "--only" => options.only = Some(words.next()?),
                "--mix" => options.gets = words.next()?.parse().ok()?,
                "--pairs" => options.size.pairs = words.next()?.parse().ok()?,
                "--threads" => options.size.threads = words.next()?.parse().ok().filter(|threads| *threads > 0)?,
                "calls" => options.subject = Subject::Calls,
                "keys" => options.subject = Subject::Keys,
                "crowded" => options.subject = Subject::Crowded,
                "size" => options.subject = Subject::Size,
                "latency" => options.subject = Subject::Latency,
                _ => return None,
            }
        }
        Some(options)
    }
}

#[derive(Clone, Copy)]
struct Done {
    operations: u64,
    sum: u64,
    cut: bool,
}

impl Done {
    fn and(self, other: Done) -> Done {
        Done {
            operations: self.operations + other.operations,
            sum: self.sum.wrapping_add(other.sum),
            cut: self.cut || other.cut,
        }
    }
}

pub fn fill(client: &mut impl Client, mix: impl Mix) {
    let mut draws = Draws(12_345);
    for _ in 0..mix.first_puts() {
        let key = draws.draw() % mix.keys();
        client.call(Op::Put { key, value: draws.0 });
    }
}

#[inline(never)]
fn work(client: &mut impl Client, mix: impl Mix, place: u64, operations: u64, end: Instant) -> Done {
    let mut draws = Draws(place);
    let mut done = Done { operations: 0, sum: 0, cut: false };
    while done.operations < operations {
        done.sum = done.sum.wrapping_add(client.call(mix.draw(&mut draws, place)));
        done.operations += 1;
        if done.operations % 256 == 0 && Instant::now() > end {
            done.cut = done.operations < operations;
            break;
        }
    }
    done
}

fn measure(map: &impl Map, name: &str, mix: impl Mix, threads: u64, options: &Options) {
    let mut client = map.client();
    fill(&mut client, mix);
    let begun = Instant::now();
    let end = begun + options.limit;
    let done = thread::scope(|scope| {
        let start = |place| scope.spawn(move || work(&mut map.client(), mix, place, options.operations, end));
        let others: Vec<_> = (1..threads).map(start).collect();
        let first = work(&mut client, mix, 0, options.operations, end);
        others.into_iter().fold(first, |all, other| all.and(other.join().expect("no thread panics")))
    });
    let nanos = begun.elapsed().as_nanos() as f64 * threads as f64 / done.operations as f64;
    let cut = if done.cut { ", cut" } else { "" };
    println!("{name}, {}, {threads} threads: {nanos:.1} ns{cut}, answers {}", mix.name(), done.sum);
}

/// Measures all cells of the subject, each on a map of its own.
pub fn measure_all<M: Map>(options: &Options, name: &str, make: impl Fn(Room) -> M) {
    if options.only.as_ref().map_or(false, |only| only != name) {
        return;
    }
    match options.subject {
        Subject::Calls => {
            measure_crews(options, name, &make, Uniform::<90, 20_000>);
            measure_crews(options, name, &make, Uniform::<50, 1_000>);
            measure_crews(options, name, &make, Load);
            measure_crews(options, name, &make, Uniform::<98, 200_000>);
            measure_crews(options, name, &make, Uniform::<100, 20_000>);
        }
        Subject::Keys => {
            for keys in [1_000, 10_000, 100_000, 1_000_000] {
                for threads in [1, 4] {
                    measure_crew(options, name, &make, MostlyGets { keys }, threads);
                }
            }
        }
        // More threads than processors.
        Subject::Crowded => {
            for threads in [4, 16, 64] {
                measure_crew(options, name, &make, Uniform::<90, 20_000>, threads);
                measure_crew(options, name, &make, Uniform::<50, 1_000>, threads);
            }
        }
        Subject::Size => measure_size(options, name, make),
        Subject::Latency => measure_latency(options, name, make),
    }
}

fn measure_crews<M: Map>(options: &Options, name: &str, make: &impl Fn(Room) -> M, mix: impl Mix) {
    for threads in [1, 2, 4] {
        measure_crew(options, name, make, mix, threads);
    }
}

fn measure_crew<M: Map>(options: &Options, name: &str, make: &impl Fn(Room) -> M, mix: impl Mix, threads: u64) {
    measure(&make(Room { keys: mix.keys(), threads }), name, mix, threads, options);
}
