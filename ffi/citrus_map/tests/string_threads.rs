//! A map from strings that threads share. With `STRING_ROUNDS` in the environment they make so many times as many calls.

mod common;
#[path = "common/order.rs"]
mod order;
#[path = "common/strings.rs"]
mod strings;

use citrus_map::{Change, Index, Prefix, StringMap, StringMapHandle, Waiter};
use common::{draws_of, Draws};
use order::{fit_one_order, Call, Told};
use std::collections::{BTreeMap, BTreeSet};
use std::sync::atomic::{AtomicBool, AtomicU64, AtomicUsize, Ordering::SeqCst};
use std::sync::Arc;
use std::thread;
use strings::{Counted, WAITERS};

const THREADS: u64 = 4;

fn rounds() -> u64 {
    std::env::var("STRING_ROUNDS").map_or(1, |rounds| rounds.parse().expect("STRING_ROUNDS is a number"))
}

fn map_of<V: Send + Sync>(waiter: Waiter, pairs: u32) -> StringMap<V> {
    StringMap::build(Index::builder(pairs, THREADS as u32).waiter(waiter)).unwrap()
}

/// Each thread works by a handle of its own.
fn in_threads<V: Send + Sync, T: Send>(map: &StringMap<V>, work: impl Fn(&mut StringMapHandle<V>, u64) -> T + Sync) -> Vec<T> {
    thread::scope(|scope| {
        let work = &work;
        let start = |thread| scope.spawn(move || work(&mut map.handle().unwrap(), thread));
        let started: Vec<_> = (0..THREADS).map(start).collect();
        started.into_iter().map(|thread| thread.join().unwrap()).collect()
    })
}

/// When all is taken out no layer is left, and each value was dropped.
fn ends_with_nothing(map: &StringMap<Counted>, count: &AtomicUsize) {
    // Each handle has what it took out, and the marks of layers.
    let mut handles: Vec<_> = (0..THREADS).map(|_| map.handle().unwrap()).collect();
    handles[0].clear().unwrap();
    handles.iter_mut().for_each(|handle| handle.flush().unwrap());
    assert_eq!((handles[0].is_empty(), map.layers(), count.load(SeqCst)), (Ok(true), 0, 0));
}

/// Strings whose layers all threads share. The last sign says whose they are.
fn own_text(draws: &mut Draws, thread: u64) -> Vec<u8> {
    const STEMS: [&str; 4] = ["", "shared:", "shared:way to all", "shared:way to all of them, and on"];
    format!("{}{}{}", STEMS[draws.below(4) as usize], draws.below(20), (b'a' + thread as u8) as char).into_bytes()
}

fn work_on_own_strings(handle: &mut StringMapHandle<Counted>, thread: u64, calls: u64, count: &Arc<AtomicUsize>) {
    let (mut model, mut draws) = (BTreeMap::new(), draws_of(thread));
    for number in 0..calls {
        let text = own_text(&mut draws, thread);
        let number_of = |value: Option<Counted>| value.map(|value| value.number(&text));
        let new = || Counted::new(&text, number, count);
        match draws.below(9) {
            0 => assert_eq!(number_of(handle.upsert(&text, new()).unwrap()), model.insert(text.clone(), number)),
            1 => assert_eq!(handle.put(&text, new()).unwrap(), model.insert(text.clone(), number).is_none()),
            2 => {
                assert_eq!(handle.insert(&text, new()).is_ok(), !model.contains_key(&text));
                model.entry(text).or_insert(number);
            }
            3 => {
                assert_eq!(number_of(handle.update(&text, |_| new()).unwrap()), model.get(&text).copied());
                model.entry(text).and_modify(|its| *its = number);
            }
            4 => assert_eq!(number_of(handle.remove(&text).unwrap()), model.remove(&text)),
            5 => assert_eq!(handle.retire(&text), Ok(model.remove(&text).is_some())),
            6 => {
                handle.change(&text, |had| if had.is_some() { Change::Remove } else { Change::Put(new()) }).unwrap();
                if model.remove(&text).is_none() {
                    model.insert(text, number);
                }
            }
            _ => assert_eq!(handle.get(&text).unwrap().map(|value| value.number(&text)), model.get(&text).copied()),
        }
    }
    let mut mine = Vec::new();
    let visit = |text: &[u8], value: &Counted| {
        let number = value.number(text);
        if text.last() == Some(&(b'a' + thread as u8)) {
            mine.push((text.to_vec(), number));
        }
    };
    handle.for_each(.., visit).unwrap();
    assert!(mine.into_iter().eq(model));
}

#[test]
fn each_thread_is_told_what_it_did_to_its_own_strings() {
    for waiter in WAITERS {
        let (map, count) = (map_of(waiter, 1_000), Arc::new(AtomicUsize::new(0)));
        in_threads(&map, |handle, thread| work_on_own_strings(handle, thread, 40_000 * rounds(), &count));
        ends_with_nothing(&map, &count);
    }
}

const SHARED: [&str; 12] = [
    "aaaaaaa",
    "aaaaaaab",
    "aaaaaaac",
    "aaaaaaabbbb",
    "aaaaaaabbbbc",
    "aaaaaaabbbbd",
    "aaaaaaabbbbccccc",
    "aaaaaaabbbbccccd",
    "aaaaaaaxxxxccccc",
    "b",
    "bbbbbbbb",
    "",
];

/// All threads change the same strings. Each value that is read, or was taken out, is there and of its string.
fn work_on_shared_strings(handle: &mut StringMapHandle<Counted>, thread: u64, calls: u64, count: &Arc<AtomicUsize>) {
    let mut draws = draws_of(thread);
    for number in 0..calls {
        let text = SHARED[draws.below(SHARED.len() as u64) as usize].as_bytes();
        let new = || Counted::new(text, number, count);
        let gone = match draws.below(10) {
            0 => handle.insert(text, new()).err().and_then(|refused| refused.value),
            1 => handle.upsert(text, new()).unwrap(),
            2 => handle.update(text, |value| Counted::new(text, value.number(text) + 1, count)).unwrap(),
            3 => handle.remove(text).unwrap(),
            4 => handle.remove_if(text, |value| value.number(text) % 2 == 0).unwrap(),
            5 => {
                handle.put(text, new()).unwrap();
                None
            }
            6 => {
                handle.retire(text).unwrap();
                None
            }
            7 if number % 8 == 0 => {
                handle.for_each(Prefix(&text[..text.len().min(3)]), |text, value| assert!(value.number(text) < u64::MAX)).unwrap();
                None
            }
            _ => {
                handle.get(text).unwrap().map(|value| value.number(text));
                None
            }
        };
        gone.map(|value| value.number(text));
    }
}

#[test]
fn threads_that_share_strings_read_values_of_theirs() {
    for waiter in WAITERS {
        let (map, count) = (map_of(waiter, 1_000), Arc::new(AtomicUsize::new(0)));
        in_threads(&map, |handle, thread| work_on_shared_strings(handle, thread, 45_000 * rounds(), &count));
        ends_with_nothing(&map, &count);
    }
}

/// An even number goes, and an odd one is replaced.
fn change(handle: &mut StringMapHandle<Counted>, text: &[u8], value: u64, count: &Arc<AtomicUsize>) -> Told {
    let mut had = None;
    let decide = |before: Option<&Counted>| {
        had = before.map(|before| before.number(text));
        match had {
            Some(number) if number % 2 == 0 => Change::Remove,
            Some(_) => Change::Put(Counted::new(text, value, count)),
            None => Change::Leave,
        }
    };
    handle.change(text, decide).unwrap();
    match had {
        // It ended with the one that it asked about last.
        Some(expected) if expected % 2 == 0 => Told::Take { expected, told: Ok(expected) },
        Some(expected) => Told::Compare { value, expected, told: Ok(expected) },
        None => Told::Get { found: None },
    }
}

/// A call for one of the shared strings, and what it was told. Numbers are all different.
fn told(handle: &mut StringMapHandle<Counted>, which: u64, text: &[u8], value: u64, count: &Arc<AtomicUsize>) -> Told {
    let number_of = |value: Option<Counted>| value.map(|value| value.number(text));
    let new = Counted::new(text, value, count);
    match which {
        0 => Told::Insert { value, added: handle.insert(text, new).is_ok() },
        1 => Told::Upsert { value, old: number_of(handle.upsert(text, new).unwrap()) },
        2 => Told::Replace { value, old: handle.replace(text, new).ok().map(|old| old.number(text)) },
        3 => Told::Replace { value, old: number_of(handle.update(text, |_| Counted::new(text, value, count)).unwrap()) },
        4 => Told::Remove { old: number_of(handle.remove(text).unwrap()) },
        5 => change(handle, text, value, count),
        6 => {
            let mut stayed = None;
            let gone = handle.remove_if(text, |value| {
                stayed = Some(value.number(text)).filter(|number| number % 2 == 0);
                stayed.is_none()
            });
            match number_of(gone.unwrap()) {
                Some(old) => Told::Remove { old: Some(old) },
                None => Told::Get { found: stayed },
            }
        }
        _ => Told::Get { found: handle.get(text).unwrap().map(|value| value.number(text)) },
    }
}

#[test]
fn the_replies_for_each_string_fit_one_order() {
    const CALLS: u64 = 500;
    for round in 0..12 * rounds() {
        let waiter = WAITERS[round as usize % WAITERS.len()];
        let (map, count, clock) = (map_of(waiter, 1_000), Arc::new(AtomicUsize::new(0)), AtomicU64::new(1));
        let work = |handle: &mut StringMapHandle<Counted>, thread: u64| {
            let mut draws = draws_of(round * THREADS + thread);
            let mut calls = Vec::new();
            for number in 0..CALLS {
                let text = SHARED[draws.below(6) as usize];
                let begin = clock.fetch_add(1, SeqCst);
                let told = told(handle, draws.below(9), text.as_bytes(), thread * CALLS + number, &count);
                calls.push((text, Call { thread: thread as usize, begin, end: clock.fetch_add(1, SeqCst), told }));
            }
            calls
        };
        let calls: Vec<(&str, Call)> = in_threads(&map, work).concat();
        for text in SHARED {
            let its: Vec<Call> = calls.iter().filter(|(its, _)| *its == text).map(|(_, call)| *call).collect();
            assert!(fit_one_order(&its), "round {round}, {text}");
        }
        ends_with_nothing(&map, &count);
    }
}

/// Strings ascend, or descend, and none comes twice; those that stay are there each time, and none is there that never was.
fn check_visit(handle: &mut StringMapHandle<u64>, stays: &BTreeSet<Vec<u8>>, is_down: bool) {
    let mut texts = Vec::new();
    let visit = |text: &[u8], value: &u64| {
        assert_eq!(text.len() as u64, *value);
        texts.push(text.to_vec());
    };
    let count = if is_down { handle.for_last(.., usize::MAX, visit) } else { handle.for_each(.., visit) };
    if is_down {
        texts.reverse();
    }
    assert_eq!(count, Ok(texts.len()));
    assert!(texts.windows(2).all(|pair| pair[0] < pair[1]));
    assert_eq!(texts.iter().filter(|text| stays.contains(*text)).count(), stays.len());
    assert!(texts.iter().all(|text| stays.contains(text) || text.ends_with(b"!")));
}

#[test]
fn visits_beside_writers_have_what_stays() {
    for waiter in WAITERS {
        let (map, is_over) = (map_of(waiter, 3_000), AtomicBool::new(false));
        let stem = |number: u64| format!("way{} to {}", "y".repeat(number as usize % 9), number / 3);
        let stays: BTreeSet<Vec<u8>> = (0..400).map(|number| stem(number).into_bytes()).collect();
        let mut first = map.handle().unwrap();
        stays.iter().for_each(|text| first.insert(text, text.len() as u64).unwrap());
        drop(first);
        in_threads(&map, |handle, thread| {
            let mut draws = draws_of(thread);
            if thread == 0 {
                (0..60 * rounds()).for_each(|round| check_visit(handle, &stays, round % 2 == 1));
                is_over.store(true, SeqCst);
            }
            while !is_over.load(SeqCst) {
                let text = format!("{}{}!", stem(draws.below(400)), "x".repeat(draws.below(9) as usize));
                if draws.below(2) == 0 {
                    handle.put(&text, text.len() as u64).unwrap();
                } else {
                    handle.retire(&text).unwrap();
                }
            }
        });
        assert!(map.handle().unwrap().retain(Prefix("way"), |text, _| !text.ends_with(b"!")).is_ok());
        assert_eq!(map.handle().unwrap().len(), Ok(stays.len()));
    }
}

#[test]
fn each_pair_is_popped_once() {
    let map = map_of(Waiter::Eer, 3_000);
    let mut handle = map.handle().unwrap();
    let texts: BTreeSet<Vec<u8>> = (0..1_000).map(|number| format!("visit {number}").into_bytes()).collect();
    texts.iter().for_each(|text| handle.insert(text, ()).unwrap());
    drop(handle);
    let popped = in_threads(&map, |handle, thread| {
        let pop = |handle: &mut StringMapHandle<()>| if thread % 2 == 0 { handle.pop_first() } else { handle.pop_last() };
        std::iter::from_fn(|| pop(handle).unwrap()).map(|(text, ())| text).collect::<Vec<_>>()
    });
    let popped = popped.concat();
    assert_eq!((popped.len(), popped.into_iter().collect::<BTreeSet<_>>()), (texts.len(), texts));
}
