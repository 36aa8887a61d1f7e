//! A map from strings: each answer, beside a `BTreeMap` by one thread.

mod common;
#[path = "common/strings.rs"]
mod strings;

use citrus_map::{Change, Error, Index, Prefix, StringGuard, StringMap, StringMapHandle};
use common::{draws_of, Draws};
use std::collections::BTreeMap;
use std::mem::{forget, take};
use std::panic::{catch_unwind, AssertUnwindSafe};
use std::sync::atomic::{AtomicBool, AtomicUsize, Ordering::SeqCst};
use std::sync::{mpsc, Arc};
use std::thread;
use std::time::Duration;
use strings::{Counted, WAITERS};

const PIECES: [&[u8]; 13] =
    [b"user:", b"user", b"a", b"b", b"ab", b"0001", b"0002", b"zzzzzzz", b"zzzzzzzz", b"\xff", b"\xff\xff\xff\xff", b"\0", b"http://www."];

/// Strings that share much: pieces out of a few, and bytes of each kind.
fn drawn_text(draws: &mut Draws) -> Vec<u8> {
    match draws.below(4) {
        0 => (0..draws.below(14)).map(|_| b"\0\x01ab"[draws.below(4) as usize]).collect(),
        1 => (0..draws.below(5)).flat_map(|_| PIECES[draws.below(PIECES.len() as u64) as usize]).copied().collect(),
        // A way that all share, and then a sign or two.
        2 => {
            let way = vec![b'a'; draws.below(30) as usize];
            way.into_iter().chain((0..draws.below(3)).map(|_| b"bc"[draws.below(2) as usize])).collect()
        }
        _ => format!("user:{}", draws.below(200)).into_bytes(),
    }
}

type Model = BTreeMap<Vec<u8>, u64>;

#[test]
fn calls_answer_as_a_map() {
    for waiter in WAITERS {
        let map = StringMap::build(Index::builder(20, 1).waiter(waiter)).unwrap();
        let mut handle = map.handle().unwrap();
        assert!(handle.get("five").unwrap().is_none());
        assert!(handle.insert("five", 5).is_ok());
        let refused = handle.insert(String::from("five"), 6).unwrap_err();
        assert_eq!((refused.cause, refused.value), (Error::Present, Some(6)));
        assert_eq!(*handle.get(b"five").unwrap().unwrap(), 5);
        assert_eq!(StringGuard::key(&handle.get("five").unwrap().unwrap()), b"five");
        assert_eq!(handle.replace("five", 7).unwrap(), 5);
        let refused = handle.replace("six", 6).unwrap_err();
        assert_eq!((refused.cause, refused.value), (Error::Absent, Some(6)));
        assert_eq!((handle.upsert("five", 8).unwrap(), handle.upsert("six", 9).unwrap()), (Some(7), None));
        assert_eq!((handle.put("six", 10).unwrap(), handle.put("", 11).unwrap()), (false, true));
        assert_eq!((handle.update("six", |six| six + 1), handle.update("seven", |_| panic!("it is absent"))), (Ok(Some(10)), Ok(None)));
        assert_eq!(handle.keys(..).unwrap(), [&b""[..], b"five", b"six"]);
        assert_eq!((handle.contains_key("five"), handle.contains_key("fiv")), (Ok(true), Ok(false)));
        assert_eq!((handle.remove("five"), handle.remove("five")), (Ok(Some(8)), Ok(None)));
        assert_eq!((handle.retire("six"), handle.retire("six")), (Ok(true), Ok(false)));
        assert_eq!((handle.pop_first(), handle.pop_last()), (Ok(Some((Vec::new(), 11))), Ok(None)));
        assert_eq!((handle.is_empty(), handle.len(), map.layers()), (Ok(true), Ok(0), 0));
    }
}

#[test]
fn a_pair_goes_while_its_value_is_the_one_that_was_read() {
    for waiter in WAITERS {
        let map = StringMap::build(Index::builder(20, 1).waiter(waiter)).unwrap();
        let mut handle = map.handle().unwrap();
        assert_eq!(handle.remove_if("five", |_| panic!("it is absent")), Ok(None));
        assert_eq!(handle.retire_if("five", |_| panic!("it is absent")), Ok(false));
        handle.insert("five", 5).unwrap();
        assert_eq!((handle.remove_if("five", |value| *value != 5), handle.retire_if("five", |value| *value != 5)), (Ok(None), Ok(false)));
        assert_eq!(handle.remove_if("five", |value| *value == 5), Ok(Some(5)));
        handle.insert("five", 6).unwrap();
        assert_eq!(handle.retire_if("five", |value| *value == 6), Ok(true));
        assert_eq!(handle.is_empty(), Ok(true));
    }
}

#[test]
fn a_change_does_what_it_says() {
    let map = StringMap::new(20, 1).unwrap();
    let mut handle = map.handle().unwrap();
    let mut asked = Vec::new();
    let mut change = |to: Change<u64>| {
        handle.change("five", |value| {
            asked.push(value.copied());
            to
        })
    };
    for to in [Change::Leave, Change::Remove, Change::Put(5), Change::Leave, Change::Put(6), Change::Remove, Change::Leave] {
        assert_eq!(change(to), Ok(()));
    }
    assert_eq!(asked, [None, None, None, Some(5), Some(5), Some(6), None]);
}

#[test]
fn ranges_have_all_strings_in_them_and_none_beside() {
    for waiter in WAITERS {
        let map = StringMap::build(Index::builder(5_000, 1).waiter(waiter)).unwrap();
        let (mut handle, mut all, mut draws) = (map.handle().unwrap(), Model::new(), draws_of(1));
        for number in 0..2_000 {
            let text = drawn_text(&mut draws);
            assert_eq!(handle.insert(&text, number).is_ok(), !all.contains_key(&text));
            all.entry(text).or_insert(number);
        }
        for round in 0..300 {
            let (one, other) = (drawn_text(&mut draws), drawn_text(&mut draws));
            let prefix = Prefix(&one[..one.len().min(round % 9)]);
            let begun = |text: &Vec<u8>| text.starts_with(prefix.0);
            check_range(&mut handle, prefix, all.iter().filter(|(text, _)| begun(text)), round);
            check_range(&mut handle, &one[..].., all.range(one.clone()..), round);
            check_range(&mut handle, ..=&one[..], all.range(..=one.clone()), round);
            let between = all.iter().filter(|(text, _)| (&one..&other).contains(text));
            check_range(&mut handle, &one[..]..&other[..], between, round);
        }
        check_range(&mut handle, .., all.iter(), 400);
        assert_eq!(handle.len(), Ok(all.len()));
    }
}

fn check_range<'m>(
    handle: &mut StringMapHandle<u64>,
    range: impl citrus_map::StringRange + Clone,
    pairs: impl Iterator<Item = (&'m Vec<u8>, &'m u64)>,
    most: usize,
) {
    let pairs: Vec<(Vec<u8>, u64)> = pairs.map(|(text, number)| (text.clone(), *number)).collect();
    let mut told = Vec::new();
    let mut visit = |text: &[u8], number: &u64| told.push((text.to_vec(), *number));
    assert_eq!(handle.for_each(range.clone(), &mut visit), Ok(pairs.len()));
    let few = pairs.len().min(most);
    assert_eq!(handle.for_first(range.clone(), most, &mut visit), Ok(few));
    assert_eq!(handle.for_last(range.clone(), most, &mut visit), Ok(few));
    assert_eq!(told, [&pairs[..], &pairs[..few], &pairs.iter().rev().take(most).cloned().collect::<Vec<_>>()].concat());
    assert_eq!(handle.first_key(range.clone()).unwrap(), pairs.first().map(|(text, _)| text.clone()));
    assert_eq!(handle.last_key(range).unwrap(), pairs.last().map(|(text, _)| text.clone()));
}

/// A call and its answer, as the model has it.
fn call(handle: &mut StringMapHandle<Counted>, model: &mut Model, draws: &mut Draws, number: u64, count: &Arc<AtomicUsize>) {
    let text = drawn_text(draws);
    let (value, had) = (Counted::new(&text, number, count), model.get(&text).copied());
    let number_of = |value: Option<Counted>| value.map(|value| value.number(&text));
    let kind = draws.below(10);
    match kind {
        0 | 1 => assert_eq!(handle.insert(&text, value).is_ok(), had.is_none()),
        2 => assert_eq!(number_of(handle.upsert(&text, value).unwrap()), had),
        3 => assert_eq!(handle.put(&text, value).unwrap(), had.is_none()),
        4 => assert_eq!(handle.replace(&text, value).ok().map(|before| before.number(&text)), had),
        5 => assert_eq!(number_of(handle.update(&text, |_| Counted::new(&text, number, count)).unwrap()), had),
        6 => assert_eq!(number_of(handle.remove(&text).unwrap()), had),
        7 => assert_eq!(handle.retire(&text), Ok(had.is_some())),
        8 => {
            let is_odd = |value: &Counted| value.number(&text) % 2 == 1;
            assert_eq!(number_of(handle.remove_if(&text, is_odd).unwrap()), had.filter(|number| number % 2 == 1));
        }
        _ => assert_eq!(handle.get(&text).unwrap().map(|value| value.number(&text)), had),
    }
    let after = match (kind, had) {
        (2 | 3, _) | (0 | 1, None) | (4 | 5, Some(_)) => Some(number),
        (6 | 7, _) => None,
        (8, had) => had.filter(|number| number % 2 == 0),
        (_, had) => had,
    };
    match after {
        Some(number) => model.insert(text, number),
        None => model.remove(&text),
    };
}

#[test]
fn each_answer_is_that_of_a_model_and_no_layer_is_left() {
    for waiter in WAITERS {
        let count = Arc::new(AtomicUsize::new(0));
        let map = StringMap::build(Index::builder(5_000, 1).waiter(waiter)).unwrap();
        let (mut handle, mut model, mut draws) = (map.handle().unwrap(), Model::new(), draws_of(2));
        for number in 0..20_000 {
            call(&mut handle, &mut model, &mut draws, number, &count);
            if number % 5_000 < 4_999 {
                continue;
            }
            assert!(map.layers() > 0);
            for text in take(&mut model).into_keys() {
                assert_eq!(handle.retire(&text), Ok(true));
            }
            handle.flush().unwrap();
            assert_eq!((handle.is_empty(), map.layers(), count.load(SeqCst)), (Ok(true), 0, 0));
        }
    }
}

#[test]
fn a_full_map_refuses_and_stays_as_it_was() {
    for waiter in WAITERS {
        let count = Arc::new(AtomicUsize::new(0));
        let map = StringMap::build(Index::builder(4, 1).waiter(waiter)).unwrap();
        let (mut handle, mut texts) = (map.handle().unwrap(), Vec::new());
        // Those that make layers, and then others, which need one pair each.
        for stem in ["a way that all of them share: ", ""] {
            let refused = (0..1_000).find(|length| {
                let text = format!("{stem}{}", "a".repeat(*length));
                match handle.insert(&text, Counted::new(text.as_bytes(), *length as u64, &count)) {
                    Ok(()) => {
                        texts.push((text, *length as u64));
                        false
                    }
                    Err(refused) => {
                        assert_eq!(refused.cause, Error::Full);
                        assert_eq!(refused.value.unwrap().number(text.as_bytes()), *length as u64);
                        true
                    }
                }
            });
            let refused = format!("{stem}{}", "a".repeat(refused.expect("it is full at some time")));
            assert_eq!(handle.contains_key(refused), Ok(false));
        }
        let layers = map.layers();
        assert_eq!((handle.len(), count.load(SeqCst)), (Ok(texts.len()), texts.len()));
        for (text, number) in &texts {
            assert_eq!(handle.get(text).unwrap().unwrap().number(text.as_bytes()), *number);
        }
        assert!(texts.len() as u64 + layers >= 4 && layers == map.layers());
        assert_eq!(handle.clear(), Ok(texts.len()));
        handle.flush().unwrap();
        assert_eq!((map.layers(), count.load(SeqCst)), (0, 0));
        assert!(handle.insert("five", Counted::new(b"five", 5, &count)).is_ok());
    }
}

/// A string that begins with all of many others, layer in layer.
#[test]
fn ways_may_be_long() {
    const STRINGS: usize = 600;
    let map = StringMap::new(2 * STRINGS as u32, 1).unwrap();
    let mut handle = map.handle().unwrap();
    let all = vec![b'a'; 4 * STRINGS + 8];
    let text = |number: usize| &all[..8 + 4 * number];
    for number in 0..STRINGS {
        handle.insert(text(number), number).unwrap();
    }
    assert!(map.layers() as usize <= STRINGS);
    let mut next = 0;
    let visit = |_: &[u8], number: &usize| {
        assert_eq!(*number, next);
        next += 1;
    };
    assert_eq!(handle.for_each(.., visit), Ok(STRINGS));
    assert_eq!(handle.last_key(..).unwrap().unwrap(), text(STRINGS - 1));
    assert_eq!(*handle.get(text(STRINGS - 1)).unwrap().unwrap(), STRINGS - 1);
    assert_eq!(handle.contains_key(&all), Ok(false));
    assert_eq!(handle.retain(.., |_, number| *number == 7), Ok(STRINGS - 1));
    assert_eq!(handle.pop_last(), Ok(Some((text(7).to_vec(), 7))));
    handle.flush().unwrap();
    assert_eq!((handle.is_empty(), map.layers()), (Ok(true), 0));
}

#[test]
fn all_of_a_prefix_are_retired() {
    let map = StringMap::new(3_000, 1).unwrap();
    let mut handle = map.handle().unwrap();
    for number in 0..1_000 {
        handle.insert(format!("user:{number}"), number).unwrap();
        handle.insert(format!("visit:{number}"), number).unwrap();
    }
    assert_eq!(handle.retain(Prefix("user:"), |text, number| text.ends_with(b"7") && number % 2 == 1), Ok(900));
    assert_eq!((handle.len(), handle.for_each(Prefix("user:"), |_, _| ())), (Ok(1_100), Ok(100)));
    assert_eq!((handle.clear(), handle.clear()), (Ok(1_100), Ok(0)));
}

#[test]
fn a_thread_that_reads_updates_by_no_other_handle() {
    for waiter in WAITERS {
        let map = StringMap::build(Index::builder(20, 2).waiter(waiter)).unwrap();
        let (mut reader, mut writer) = (map.handle().unwrap(), map.handle().unwrap());
        writer.insert("five", 5).unwrap();
        let five = reader.get("five").unwrap().unwrap();
        let never = |_: &i32| -> bool { panic!("it is refused before") };
        assert_eq!(writer.insert("six", 6).unwrap_err().cause, Error::Holds);
        assert_eq!(writer.upsert("five", 6).unwrap_err().cause, Error::Holds);
        assert_eq!(writer.put("five", 6).unwrap_err().cause, Error::Holds);
        assert_eq!(writer.replace("five", 6).unwrap_err().cause, Error::Holds);
        assert_eq!(writer.update("five", |_| panic!("it is refused before")), Err(Error::Holds));
        assert_eq!(writer.change("five", |_| panic!("it is refused before")), Err(Error::Holds));
        assert_eq!((writer.remove("five"), writer.retire("five")), (Err(Error::Holds), Err(Error::Holds)));
        assert_eq!((writer.remove_if("five", never), writer.retire_if("five", never)), (Err(Error::Holds), Err(Error::Holds)));
        assert_eq!(
            (writer.pop_first(), writer.clear(), writer.retain(.., |_, _| true)),
            (Err(Error::Holds), Err(Error::Holds), Err(Error::Holds))
        );
        assert_eq!(*writer.get("five").unwrap().unwrap(), 5);
        assert_eq!((writer.len(), writer.contains_key("six")), (Ok(1), Ok(false)));
        drop(five);
        assert_eq!(writer.remove("five"), Ok(Some(5)));
    }
}

#[test]
fn a_guard_that_was_forgotten_ends_with_the_next_call_of_its_handle() {
    let map = StringMap::new(20, 2).unwrap();
    let (mut reader, mut writer) = (map.handle().unwrap(), map.handle().unwrap());
    writer.insert("five", 5).unwrap();
    forget(reader.get("five").unwrap());
    assert_eq!(writer.remove("five"), Err(Error::Holds));
    assert_eq!(reader.contains_key("six"), Ok(false));
    assert_eq!(writer.remove("five"), Ok(Some(5)));
    writer.insert("six", 6).unwrap();
    forget(reader.get("six").unwrap());
    assert_eq!(reader.remove("six"), Ok(Some(6)));
    writer.insert("seven", 7).unwrap();
    forget(reader.get("seven").unwrap());
    drop(reader);
    assert_eq!(writer.remove("seven"), Ok(Some(7)));
}

/// A value is read in a thread of its own while this is done.
fn beside_a_reader(map: &StringMap<Counted>, text: &'static str, act: impl FnOnce(&AtomicBool)) {
    let (is_read, may_leave, is_over) = (mpsc::channel(), mpsc::channel(), AtomicBool::new(false));
    thread::scope(|scope| {
        let is_over = &is_over;
        scope.spawn(move || {
            let mut reader = map.handle().unwrap();
            let value = reader.get(text).unwrap().unwrap();
            is_read.0.send(()).unwrap();
            may_leave.1.recv().unwrap();
            is_over.store(true, SeqCst);
            value.number(text.as_bytes());
        });
        is_read.1.recv().unwrap();
        let leave = thread::spawn(move || {
            thread::sleep(Duration::from_millis(200));
            may_leave.0.send(()).unwrap();
        });
        act(is_over);
        leave.join().unwrap();
    });
}

/// Inserts, lookups and retires wait for no reader, those that make a layer or empty one neither; a remove of a string with the same slice does, and
/// one of another slice doesn't.
#[test]
fn who_waits_for_a_reader() {
    for waiter in WAITERS {
        let count = Arc::new(AtomicUsize::new(0));
        let map = StringMap::build(Index::builder(200, 2).waiter(waiter)).unwrap();
        let mut handle = map.handle().unwrap();
        let value = |text: &str| Counted::new(text.as_bytes(), 1, &count);
        for text in ["shared:way", "shared:walk", "other"] {
            handle.insert(text, value(text)).unwrap();
        }
        beside_a_reader(&map, "shared:way", |is_over| {
            handle.insert("shared:wall", value("shared:wall")).unwrap();
            for text in ["shared:walk", "shared:wall", "shared:way"] {
                assert!(handle.contains_key(text).unwrap() && handle.retire(text).unwrap());
            }
            assert!(handle.is_empty().unwrap() || handle.contains_key("other").unwrap());
            assert!(!is_over.load(SeqCst));
            // The waiters of classes may have both slices in one.
            assert!(handle.remove("other").unwrap().is_some());
            handle.insert("shared:way", value("shared:way")).unwrap();
            assert!(handle.remove("shared:way").unwrap().is_some());
            assert!(is_over.load(SeqCst));
        });
        handle.flush().unwrap();
        assert_eq!((map.layers(), count.load(SeqCst)), (0, 0));
    }
}

#[test]
fn what_handles_keep_goes_with_the_map() {
    let count = Arc::new(AtomicUsize::new(0));
    let map = StringMap::new(500, 2).unwrap();
    let mut handle = map.handle().unwrap();
    for number in 0..100 {
        let text = format!("begins alike {number}");
        handle.insert(&text, Counted::new(text.as_bytes(), number, &count)).unwrap();
    }
    // What is retired here stays with the handle, and so do the marks of the layers.
    for number in 50..60 {
        assert_eq!(handle.retire(format!("begins alike {number}")), Ok(true));
    }
    assert_eq!(handle.retain(Prefix("begins alike 9"), |_, _| false), Ok(11));
    drop(handle);
    assert!(count.load(SeqCst) >= 79 && map.layers() > 0);
    assert_eq!(map.free_handles(), 2);
    drop(map);
    assert_eq!(count.load(SeqCst), 0);
}

#[test]
fn a_map_outlives_its_owner_by_its_handles() {
    let count = Arc::new(AtomicUsize::new(0));
    let map = StringMap::new(50, 1).unwrap();
    let mut handle = map.handle().unwrap();
    assert!(matches!(map.handle(), Err(Error::NoHandle)));
    handle.insert("five", Counted::new(b"five", 5, &count)).unwrap();
    drop(map);
    assert_eq!(handle.get("five").unwrap().unwrap().number(b"five"), 5);
    drop(handle);
    assert_eq!(count.load(SeqCst), 0);
}

#[test]
fn what_panics_changes_nothing() {
    let count = Arc::new(AtomicUsize::new(0));
    let map = StringMap::new(50, 2).unwrap();
    let (mut handle, mut other) = (map.handle().unwrap(), map.handle().unwrap());
    handle.insert("five", Counted::new(b"five", 5, &count)).unwrap();
    let is_panic = |call: &mut dyn FnMut()| catch_unwind(AssertUnwindSafe(call)).is_err();
    assert!(is_panic(&mut || drop(handle.remove_if("five", |_| panic!("asked")))));
    assert!(is_panic(&mut || drop(handle.update("five", |_| panic!("asked")))));
    assert!(is_panic(&mut || assert!(handle.change("six", |_| panic!("asked")).is_err())));
    assert!(is_panic(&mut || assert!(handle.for_each(.., |_, _| panic!("visited")).is_err())));
    // Its sections are left.
    assert_eq!(other.get("five").unwrap().unwrap().number(b"five"), 5);
    assert_eq!(other.remove("five").unwrap().unwrap().number(b"five"), 5);
    assert_eq!(count.load(SeqCst), 0);
}

/// A value that panics as it is dropped takes no other one with it.
#[test]
fn a_value_that_panics_as_it_is_dropped() {
    struct Panics(Option<Counted>);
    impl Drop for Panics {
        fn drop(&mut self) {
            assert!(self.0.is_some(), "dropped");
        }
    }
    let count = Arc::new(AtomicUsize::new(0));
    let map = StringMap::new(50, 1).unwrap();
    let mut handle = map.handle().unwrap();
    for number in 0..10 {
        let text = format!("begins alike {number}");
        let value = Counted::new(text.as_bytes(), number, &count);
        handle.insert(&text, Panics(if number == 5 { None } else { Some(value) })).unwrap();
    }
    assert_eq!(handle.clear(), Ok(10));
    assert!(catch_unwind(AssertUnwindSafe(|| handle.flush())).is_err());
    handle.flush().unwrap();
    assert_eq!((count.load(SeqCst), map.layers()), (0, 0));
}

#[test]
fn builders_are_refused_as_those_of_an_index() {
    assert!(matches!(StringMap::<u8>::new(0, 1), Err(Error::Pairs)));
    assert!(matches!(StringMap::<u8>::new(5, 0), Err(Error::Handles)));
    assert!(matches!(StringMap::<u8>::build(Index::builder(5, 1).keep(3)), Err(Error::Keep)));
    let turns = StringMap::build(Index::builder(50, 2).updates_in_turn(true).keep(100)).unwrap();
    turns.handle().unwrap().insert("five", 5).unwrap();
    assert_eq!(turns.handle().unwrap().remove("five"), Ok(Some(5)));
}
