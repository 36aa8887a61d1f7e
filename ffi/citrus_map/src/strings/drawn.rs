//! String maps by drawn schedules: each call of the library is where another thread may go on. Two to four threads call for one to five strings that
//! begin alike; one order explains the replies for each, and when all is taken out no value and no layer is left. `DRAWN_ROUNDS` in the environment
//! says how many rounds there are.

#[path = "../../tests/common/order.rs"]
mod order;

use super::{Change, StringMap, StringMapHandle};
use crate::schedule::{may_go_over, Schedule};
use crate::{Index, Waiter};
use order::{fit_one_order, Call, Told};
use std::collections::BTreeSet;
use std::sync::atomic::{AtomicU64, AtomicUsize, Ordering::SeqCst};

const TEXTS: [&str; 12] = [
    "aaaaaaa",
    "aaaaaaab",
    "aaaaaaac",
    "aaaaaaabbbb",
    "aaaaaaabbbbc",
    "aaaaaaabbbbd",
    "aaaaaaabbbbccccc",
    "aaaaaaabbbbccccd",
    "aaaaaaaxxxxccccc",
    "b",
    "bbbbbbbb",
    "",
];

/// It counts how many there are, and tells whether it is there.
struct Value<'c> {
    number: u64,
    check: u64,
    count: &'c AtomicUsize,
}

impl<'c> Value<'c> {
    fn new(number: u64, count: &'c AtomicUsize) -> Value<'c> {
        count.fetch_add(1, SeqCst);
        Value { number, check: !number, count }
    }

    fn number(&self) -> u64 {
        assert_eq!(self.check, !self.number, "it was dropped");
        self.number
    }
}

impl Drop for Value<'_> {
    fn drop(&mut self) {
        assert_eq!(self.check, !self.number, "it was dropped before");
        // SAFETY: a store to a field of our own, which the compiler can't leave out.
        unsafe { std::ptr::write_volatile(&mut self.check, self.number) };
        self.count.fetch_sub(1, SeqCst);
    }
}

struct Draws(u64);

impl Draws {
    fn below(&mut self, bound: u64) -> u64 {
        self.0 = self.0.wrapping_mul(6_364_136_223_846_793_005).wrapping_add(1_442_695_040_888_963_407);
        (self.0 >> 33) % bound
    }
}

/// What a round has.
struct Round<'r> {
    count: &'r AtomicUsize,
    clock: &'r AtomicU64,
    texts: &'r [&'static str],
}

type Handle<'r> = StringMapHandle<Value<'r>>;

impl<'r> Round<'r> {
    /// Makes a call of this kind, and adds what it told of the strings.
    fn call(
        &self,
        handle: &mut Handle<'r>,
        kind: u64,
        text: &'static str,
        number: u64,
        thread: usize,
        calls: &mut Vec<(&'static str, Call)>,
    ) {
        let begin = self.clock.fetch_add(1, SeqCst);
        let told = match kind {
            0 => return self.visit(handle, begin, thread, calls),
            1 => self.take_odd(handle, text),
            kind => self.told(handle, kind, text, number),
        };
        calls.push((text, Call { thread, begin, end: self.clock.fetch_add(1, SeqCst), told }));
    }

    fn told(&self, handle: &mut Handle<'r>, kind: u64, text: &str, value: u64) -> Told {
        let number_of = |value: Option<Value<'_>>| value.map(|value| value.number());
        let new = || Value::new(value, self.count);
        match kind {
            2 => Told::Insert { value, added: handle.insert(text, new()).is_ok() },
            3 => Told::Upsert { value, old: number_of(handle.upsert(text, new()).unwrap()) },
            4 => Told::Replace { value, old: handle.replace(text, new()).ok().map(|old| old.number()) },
            5 => Told::Replace { value, old: number_of(handle.update(text, |_| new()).unwrap()) },
            6 => Told::Remove { old: number_of(handle.remove(text).unwrap()) },
            7 => self.change(handle, text, value),
            8 => {
                let mut old = None;
                let decide = |found: Option<&Value<'_>>| {
                    old = found.map(Value::number);
                    Change::Put(new())
                };
                handle.change(text, decide).unwrap();
                Told::Upsert { value, old }
            }
            _ => {
                let found = handle.get(text).unwrap();
                may_go_over();
                Told::Get { found: found.map(|value| value.number()) }
            }
        }
    }

    /// An even number goes, and an odd one is replaced.
    fn change(&self, handle: &mut Handle<'r>, text: &str, value: u64) -> Told {
        let mut had = None;
        let decide = |found: Option<&Value<'_>>| {
            had = found.map(Value::number);
            match had {
                Some(number) if number % 2 == 0 => Change::Remove,
                Some(_) => Change::Put(Value::new(value, self.count)),
                None => Change::Leave,
            }
        };
        handle.change(text, decide).unwrap();
        match had {
            Some(expected) if expected % 2 == 0 => Told::Take { expected, told: Ok(expected) },
            Some(expected) => Told::Compare { value, expected, told: Ok(expected) },
            None => Told::Get { found: None },
        }
    }

    /// It took the value out, or it ended with the one that was to stay, or with none.
    fn take_odd(&self, handle: &mut Handle<'r>, text: &str) -> Told {
        let mut stays = None;
        let is_odd = |value: &Value<'_>| {
            stays = Some(value.number()).filter(|number| number % 2 == 0);
            stays.is_none()
        };
        match handle.remove_if(text, is_odd).unwrap() {
            Some(gone) => Told::Remove { old: Some(gone.number()) },
            None => Told::Get { found: stays },
        }
    }

    /// A visit to all is a get of each string, and the strings ascend.
    fn visit(&self, handle: &mut Handle<'r>, begin: u64, thread: usize, calls: &mut Vec<(&'static str, Call)>) {
        let mut found: Vec<(Vec<u8>, u64)> = Vec::new();
        if begin % 2 == 0 {
            handle.for_each(.., |text, value| found.push((text.to_vec(), value.number()))).unwrap();
        } else {
            handle.for_last(.., usize::MAX, |text, value| found.push((text.to_vec(), value.number()))).unwrap();
            found.reverse();
        }
        assert!(found.windows(2).all(|pair| pair[0].0 < pair[1].0));
        let end = self.clock.fetch_add(1, SeqCst);
        for text in self.texts {
            let found = found.iter().find(|(its, _)| its == text.as_bytes()).map(|(_, number)| *number);
            calls.push((text, Call { thread, begin, end, told: Told::Get { found } }));
        }
    }
}

fn round(seed: u64) {
    const THREADS_MOST: u64 = 4;
    let mut draws = Draws(seed);
    let (count, clock) = (AtomicUsize::new(0), AtomicU64::new(0));
    let texts: BTreeSet<&str> = (0..1 + draws.below(5)).map(|_| TEXTS[draws.below(TEXTS.len() as u64) as usize]).collect();
    let texts: Vec<&'static str> = texts.into_iter().collect();
    let threads = 2 + draws.below(THREADS_MOST - 1) as usize;
    // Short ones are many different beginnings; in long ones much is dropped meanwhile.
    let many = if seed % 16 == 0 { 30 } else { 2 + draws.below(8) };
    let waiter = [Waiter::Eer, Waiter::Domain, Waiter::Deer][seed as usize % 3];
    let map = StringMap::build(Index::builder(200, threads as u32).waiter(waiter)).unwrap();
    let round = Round { count: &count, clock: &clock, texts: &texts };
    let mut calls = Vec::new();
    let mut first = map.handle().unwrap();
    for (number, text) in texts.iter().enumerate().filter(|_| draws.below(2) == 0) {
        round.call(&mut first, 2, text, number as u64, 0, &mut calls);
    }
    drop(first);
    let work = |thread: usize| {
        let (mut handle, mut draws, mut calls) = (map.handle().unwrap(), Draws(seed << 8 | thread as u64), Vec::new());
        for number in 0..many {
            let text = texts[draws.below(texts.len() as u64) as usize];
            round.call(&mut handle, draws.below(10), text, (thread as u64 + 1) * 1_000 + number, thread, &mut calls);
            if draws.below(16) == 0 {
                handle.flush().unwrap();
            }
        }
        calls
    };
    calls.extend(Schedule::run(threads, seed, work).into_iter().flatten());
    for text in &texts {
        let its: Vec<Call> = calls.iter().filter(|(its, _)| its == text).map(|(_, call)| *call).collect();
        assert!(fit_one_order(&its), "no order explains the replies for {text}: {its:?}");
    }
    let mut handles: Vec<_> = (0..threads).map(|_| map.handle().unwrap()).collect();
    handles[0].clear().unwrap();
    handles.iter_mut().for_each(|handle| handle.flush().unwrap());
    assert_eq!((handles[0].is_empty(), map.layers(), count.load(SeqCst)), (Ok(true), 0, 0));
}

#[test]
fn one_order_explains_the_replies_of_drawn_schedules() {
    let rounds = std::env::var("DRAWN_ROUNDS").map_or(600, |rounds| rounds.parse().expect("DRAWN_ROUNDS is a number"));
    for seed in 1..=rounds {
        if let Err(cause) = std::panic::catch_unwind(|| round(seed)) {
            eprintln!("the schedule of seed {seed}");
            std::panic::resume_unwind(cause);
        }
    }
}
