//! Maps from strings that take turns, as bench/cpp/strings.hpp has it, with the same words, lines and answers.

use std::fs::{read, read_to_string};
use std::io::{stdin, stdout, Write};
use std::process::ExitCode;
use std::thread;
use std::time::Instant;

/// How many strings a range has.
const RANGE_LENGTH: usize = 100;

/// A map that threads share.
pub trait Map: Sync {
    type Client: Client + Send;

    /// What a thread calls it by.
    fn client(&self) -> Self::Client;
}

pub trait Client {
    /// The string's value, or 0.
    fn get(&mut self, text: &[u8]) -> u64;

    /// What the values and the lengths of the first strings from this one on come to, so many at most.
    fn range(&mut self, low: &[u8], most: usize) -> u64;

    /// Whether it was added.
    fn insert(&mut self, text: &[u8], value: u64) -> bool;

    /// Whether it was there.
    fn remove(&mut self, text: &[u8]) -> bool;

    /// Drops what was taken out and is still kept.
    fn settle(&mut self) {}
}

#[derive(Clone, Copy, PartialEq, Eq)]
enum Work {
    Get,
    Range,
    Update,
    Insert,
}

impl Work {
    fn from_word(word: &str) -> Option<Work> {
        Some(match word {
            "get" => Work::Get,
            "range" => Work::Range,
            "update" => Work::Update,
            "insert" => Work::Insert,
            _ => return None,
        })
    }
}

struct Strings {
    texts: Vec<Vec<u8>>,
    /// So many of the first are in the map. The others are those of inserts.
    there: usize,
    threads: usize,
}

impl Strings {
    /// How many strings a thread has for inserts.
    fn own_new(&self) -> usize {
        (self.texts.len() - self.there) / self.threads
    }

    /// In the order in which they are put in.
    fn order(&self) -> Vec<usize> {
        let mut numbers: Vec<usize> = (0..self.there).collect();
        let mut state: u64 = 1;
        for end in (2..=self.there).rev() {
            state = state.wrapping_mul(6_364_136_223_846_793_005).wrapping_add(1_442_695_040_888_963_407);
            numbers.swap(end - 1, (state >> 33) as usize % end);
        }
        numbers
    }
}

fn read_texts(path: &str) -> Vec<Vec<u8>> {
    let bytes = read(path).expect("a file of string_sets");
    let (mut texts, mut rest) = (Vec::new(), &bytes[..]);
    while !rest.is_empty() {
        let (length, behind) = rest.split_at(4);
        let (text, others) = behind.split_at(u32::from_le_bytes(length.try_into().expect("four bytes")) as usize);
        texts.push(text.to_vec());
        rest = others;
    }
    texts
}

/// One thread's part, which goes on from cell to cell, on lines of memory of its own. A string's value is its number in the file, from 1 on.
#[repr(align(128))]
struct Part<'a, C> {
    client: C,
    strings: &'a Strings,
    place: usize,
    /// For each work the place of the string that comes next.
    next: [usize; 4],
    sum: u64,
}

impl<'a, C: Client> Part<'a, C> {
    fn new(client: C, strings: &'a Strings, place: usize) -> Part<'a, C> {
        let own_begin = strings.there / strings.threads * place;
        Part { client, strings, place, next: [own_begin, own_begin, place, strings.there + place], sum: 0 }
    }

    /// The next string of all that are there.
    fn take_next(&mut self, work: Work) -> &'a [u8] {
        let next = &mut self.next[work as usize];
        let text = &self.strings.texts[*next];
        *next = if *next + 1 == self.strings.there { 0 } else { *next + 1 };
        text
    }

    fn insert(&mut self, number: usize) -> bool {
        self.client.insert(&self.strings.texts[number], number as u64 + 1)
    }

    /// Of this thread's next own string; how many of both calls changed something.
    fn remove_and_insert(&mut self) -> u64 {
        let next = &mut self.next[Work::Update as usize];
        let now = *next;
        *next = if now + self.strings.threads < self.strings.there { now + self.strings.threads } else { self.place };
        let is_removed = self.client.remove(&self.strings.texts[now]);
        u64::from(is_removed) + u64::from(self.insert(now))
    }

    fn insert_new(&mut self) -> u64 {
        let next = &mut self.next[Work::Insert as usize];
        let now = *next;
        *next += self.strings.threads;
        u64::from(self.insert(now))
    }

    fn make(&mut self, work: Work, operations: u64) {
        let mut answers = 0_u64;
        match work {
            Work::Get => (0..operations).for_each(|_| {
                let text = self.take_next(work);
                answers = answers.wrapping_add(self.client.get(text));
            }),
            Work::Range => (0..operations).for_each(|_| {
                let low = self.take_next(work);
                answers = answers.wrapping_add(self.client.range(low, RANGE_LENGTH));
            }),
            Work::Update => (0..operations).for_each(|_| answers += self.remove_and_insert()),
            Work::Insert => (0..operations).for_each(|_| answers += self.insert_new()),
        }
        self.sum = self.sum.wrapping_add(answers);
    }

    /// How many strings it still has for inserts.
    fn new_left(&self) -> u64 {
        let begin = self.strings.there + self.place;
        (self.strings.own_new() - (self.next[Work::Insert as usize] - begin) / self.strings.threads) as u64
    }

    /// Takes out what its inserts put in.
    fn take_new_out(&mut self) {
        let strings = self.strings;
        while self.next[Work::Insert as usize] > strings.there + self.place {
            self.next[Work::Insert as usize] -= strings.threads;
            self.client.remove(&strings.texts[self.next[Work::Insert as usize]]);
        }
        self.client.settle();
    }
}

fn parts_of<'a, M: Map>(map: &M, strings: &'a Strings) -> Vec<Part<'a, M::Client>> {
    let mut parts: Vec<_> = (0..strings.threads).map(|place| Part::new(map.client(), strings, place)).collect();
    for number in strings.order() {
        parts[0].insert(number);
    }
    parts
}

/// How many nanoseconds all parts take that make so many operations at once.
fn time_of_all<C: Client + Send>(parts: &mut [Part<C>], work: Work, operations: u64) -> u128 {
    let begun = Instant::now();
    if let [first, others @ ..] = parts {
        thread::scope(|scope| {
            for part in others {
                scope.spawn(move || part.make(work, operations));
            }
            first.make(work, operations);
        });
    }
    begun.elapsed().as_nanos()
}

fn say(line: &str) {
    println!("{line}");
    stdout().flush().expect("somebody reads");
}

/// Lines `WORK N`, until the input ends.
fn take_turns(map: &impl Map, strings: &Strings) -> Option<()> {
    let mut parts = parts_of(map, strings);
    say("ready");
    for line in stdin().lines() {
        let line = line.ok()?;
        let (word, wanted) = line.split_once(' ')?;
        let (work, wanted) = (Work::from_word(word)?, wanted.parse::<u64>().ok()?);
        let operations = if work == Work::Insert { wanted.min(strings.own_new() as u64) } else { wanted };
        if work == Work::Insert && parts[0].new_left() < operations {
            parts.iter_mut().for_each(Part::take_new_out);
        }
        let (untimed, timed) = (operations / 3, operations - operations / 3);
        parts.iter_mut().for_each(|part| part.sum = 0);
        time_of_all(&mut parts, work, untimed);
        let nanoseconds = time_of_all(&mut parts, work, timed);
        let sum = parts.iter().fold(0_u64, |sum, part| sum.wrapping_add(part.sum));
        say(&format!("{timed} {nanoseconds} {sum}"));
    }
    Some(())
}

fn bytes_now() -> f64 {
    let status = read_to_string("/proc/self/status").unwrap_or_default();
    let kib = status.lines().find_map(|line| line.strip_prefix("VmRSS:")?.split_whitespace().next()?.parse::<f64>().ok());
    kib.unwrap_or(0.0) * 1024.0
}

/// What a program was asked for.
pub struct Options {
    strings: Strings,
    series: String,
    is_memory: bool,
}

impl Options {
    pub fn from_words() -> Option<Options> {
        let mut words = std::env::args().skip(1);
        let texts = read_texts(&words.next()?);
        let there = words.next()?.parse().ok().filter(|there| (1..=texts.len()).contains(there))?;
        let threads = words.next()?.parse().ok().filter(|threads| *threads > 0)?;
        let series = words.next()?;
        let is_memory = match words.next()?.as_str() {
            "turns" => false,
            "memory" => true,
            _ => return None,
        };
        Some(Options { strings: Strings { texts, there, threads }, series, is_memory })
    }

    /// Measures the map of a series, made for so many pairs and threads; nothing where another series is asked for. A map that needs pairs for more
    /// than strings is made for a third more.
    pub fn measure<M: Map>(&self, series: &str, make: impl Fn(usize, usize) -> M) -> Option<()> {
        if self.series != series {
            return Some(());
        }
        let strings = &self.strings;
        let pairs_for = |count: usize| count + count / 3;
        if !self.is_memory {
            return take_turns(&make(pairs_for(strings.texts.len()), strings.threads), strings);
        }
        let before = bytes_now();
        let map = make(pairs_for(strings.there), strings.threads);
        let _parts = parts_of(&map, strings);
        println!("{:.1}", (bytes_now() - before) / strings.there as f64);
        Some(())
    }
}

/// A program that measures what it has: `measure(options)`.
pub fn run(measure: impl Fn(&Options) -> Option<()>) -> ExitCode {
    if Options::from_words().and_then(|options| measure(&options)).is_some() {
        return ExitCode::SUCCESS;
    }
    eprintln!("usage: PROGRAM FILE STRINGS THREADS SERIES turns|memory");
    ExitCode::from(2)
}
