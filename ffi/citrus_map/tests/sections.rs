//! Sections of an index: what is read in them, who waits for them, and what is refused meanwhile.

use citrus_map::{Builder, Error, GracePeriod, Index, Tidied, Waiter};
use std::fs::read_to_string;
use std::mem::forget;
use std::sync::atomic::{AtomicBool, Ordering::SeqCst};
use std::sync::Barrier;
use std::thread;
use std::time::{Duration, Instant};

const WAITERS: [Waiter; 3] = [Waiter::Eer, Waiter::Domain, Waiter::Deer];

#[test]
fn a_hold_tells_the_value_of_a_key_that_is_present() {
    for waiter in WAITERS {
        let index = Index::builder(100, 1).waiter(waiter).build().unwrap();
        let mut handle = index.handle().unwrap();
        assert!(handle.hold(5).unwrap().is_none());
        for key in [0, 5, u64::MAX] {
            handle.insert(key, !key).unwrap();
            let held = handle.hold(key).unwrap().unwrap();
            assert_eq!((held.key(), held.value()), (key, !key));
        }
        assert_eq!(handle.enter(7).unwrap().key(), 7);
        assert_eq!(handle.remove(5), Ok(Some(!5)));
    }
}

#[test]
fn a_wait_is_over_once_the_sections_of_its_keys_are_left() {
    for waiter in WAITERS {
        let index = Index::builder(100, 2).waiter(waiter).build().unwrap();
        let (mut reader, waits) = (index.handle().unwrap(), index.handle().unwrap());
        reader.insert(5, 50).unwrap();
        let left = AtomicBool::new(false);
        thread::scope(|scope| {
            let (left, waits) = (&left, waits);
            let held = reader.hold(5).unwrap().unwrap();
            let waiting = scope.spawn(move || {
                waits.wait(5..5).unwrap();
                waits.wait(6..60).unwrap();
                waits.wait(0..=5).unwrap();
                assert!(left.load(SeqCst), "over beside a section");
            });
            thread::sleep(Duration::from_millis(30));
            left.store(true, SeqCst);
            drop(held);
            waiting.join().unwrap();
        });
    }
}

/// How long the thread has had a processor, as Linux tells.
fn processor_time() -> Duration {
    let told = read_to_string("/proc/thread-self/schedstat").unwrap();
    Duration::from_nanos(told.split_whitespace().next().unwrap().parse().unwrap())
}

#[test]
fn a_long_wait_leaves_the_processor_to_others() {
    for waiter in WAITERS {
        let index = Index::builder(100, 2).waiter(waiter).build().unwrap();
        let (mut reader, waits) = (index.handle().unwrap(), index.handle().unwrap());
        let section = reader.enter(5).unwrap();
        let begun = Barrier::new(2);
        thread::scope(|scope| {
            let begun = &begun;
            let waiting = scope.spawn(move || {
                let (before, clock) = (processor_time(), Instant::now());
                begun.wait();
                waits.wait(5..=5).unwrap();
                (processor_time() - before, clock.elapsed())
            });
            begun.wait();
            thread::sleep(Duration::from_millis(300));
            drop(section);
            let (processor, all) = waiting.join().unwrap();
            assert!(processor < all / 2, "{processor:?} of {all:?}");
        });
    }
}

#[test]
fn a_poll_tells_how_far_a_wait_is() {
    for waiter in WAITERS {
        let index = Index::builder(100, 3).waiter(waiter).build().unwrap();
        let (mut reader, waits, other) = (index.handle().unwrap(), index.handle().unwrap(), index.handle().unwrap());
        let section = reader.enter(5).unwrap();
        let cookie = waits.begin(5..6).unwrap();
        assert_eq!(waits.poll(cookie), Ok(GracePeriod::UnderWay));
        assert_eq!(waits.poll(cookie), Ok(GracePeriod::UnderWay));
        assert_eq!(other.poll(cookie), Ok(GracePeriod::Displaced));
        drop(section);
        assert_eq!(waits.poll(cookie), Ok(GracePeriod::Over));
        assert_eq!(waits.poll(cookie), Ok(GracePeriod::Displaced));
        let first = waits.begin(..).unwrap();
        let second = waits.begin(..).unwrap();
        assert_eq!(waits.poll(first), Ok(GracePeriod::Displaced));
        assert_eq!(waits.poll(second), Ok(GracePeriod::Over));
        let third = waits.begin(..).unwrap();
        waits.wait(3..4).unwrap();
        assert_eq!(waits.poll(third), Ok(GracePeriod::Displaced));
    }
}

#[test]
fn a_cookie_is_of_its_handle_alone() {
    let (one, other) = (Index::new(100, 2).unwrap(), Index::new(100, 2).unwrap());
    let (mine, beside, elsewhere) = (one.handle().unwrap(), one.handle().unwrap(), other.handle().unwrap());
    let cookies = [mine.begin(..).unwrap(), beside.begin(..).unwrap(), elsewhere.begin(..).unwrap()];
    for (number, handle) in [&mine, &beside, &elsewhere].into_iter().enumerate() {
        for (its, cookie) in cookies.into_iter().enumerate().filter(|(its, _)| *its != number) {
            assert_eq!(handle.poll(cookie), Ok(GracePeriod::Displaced), "{number} {its}");
        }
        assert_eq!(handle.poll(cookies[number]), Ok(GracePeriod::Over));
    }
    let none = mine.begin(5..5).unwrap();
    assert_eq!(mine.poll(none), Ok(GracePeriod::Over));
}

#[test]
fn a_thread_in_a_section_updates_and_waits_by_no_handle() {
    let index = Index::new(100, 2).unwrap();
    let (mut reader, other) = (index.handle().unwrap(), index.handle().unwrap());
    other.insert(5, 50).unwrap();
    let section = reader.enter(5).unwrap();
    assert_eq!(other.insert(6, 60), Err(Error::Holds));
    assert_eq!(other.replace(5, 51), Err(Error::Holds));
    assert_eq!(other.compare_exchange(5, 50, 51), Err(Error::Holds));
    assert_eq!(other.update(5, |value| value), Err(Error::Holds));
    assert_eq!(other.upsert(5, 51), Err(Error::Holds));
    assert_eq!(other.remove(5), Err(Error::Holds));
    assert_eq!(other.take(5, 50), Err(Error::Holds));
    assert_eq!(other.take(5, 51), Err(Error::Holds));
    assert_eq!(other.remove_if(5, |value| value == 50), Err(Error::Holds));
    assert_eq!(other.pop_first(), Err(Error::Holds));
    assert_eq!(other.clear(), Err(Error::Holds));
    assert_eq!(other.wait(9..10), Err(Error::Holds));
    assert_eq!(other.tidy(.., 1), Err(Error::Holds));
    assert_eq!(other.list(..), Ok(vec![(5, 50)]));
    assert_eq!(other.first_from(0), Ok(Some((5, 50))));
    assert_eq!(other.last_to(9), Ok(Some((5, 50))));
    assert_eq!(other.get(5), Ok(Some(50)));
    let cookie = other.begin(9..10).unwrap();
    assert_eq!(other.poll(cookie), Ok(GracePeriod::Over));
    drop(section);
    assert_eq!(other.remove(5), Ok(Some(50)));
    assert_eq!(Error::Holds.to_string(), "the thread has a guard of another handle");
}

#[test]
fn each_call_leaves_the_section_of_a_forgotten_guard() {
    let index = Index::new(100, 2).unwrap();
    let (mut handle, other) = (index.handle().unwrap(), index.handle().unwrap());
    handle.insert(5, 50).unwrap();
    macro_rules! after_a_forgotten_guard {
        ($call:expr, $answer:expr) => {
            forget(handle.hold(5).unwrap().unwrap());
            assert_eq!(other.wait(..), Err(Error::Holds));
            assert_eq!($call, $answer);
            assert_eq!(other.wait(..), Ok(()));
        };
    }
    after_a_forgotten_guard!(handle.get(5), Ok(Some(50)));
    after_a_forgotten_guard!(handle.insert(5, 51), Ok(false));
    after_a_forgotten_guard!(handle.replace(5, 52), Ok(Some(50)));
    after_a_forgotten_guard!(handle.compare_exchange(5, 50, 53), Ok(Err(Some(52))));
    after_a_forgotten_guard!(handle.take(5, 50), Ok(Err(Some(52))));
    after_a_forgotten_guard!(handle.remove_if(5, |value| value == 50), Ok(None));
    after_a_forgotten_guard!(handle.upsert(5, 53), Ok(Some(52)));
    after_a_forgotten_guard!(handle.list(..), Ok(vec![(5, 53)]));
    after_a_forgotten_guard!(handle.first_from(0), Ok(Some((5, 53))));
    after_a_forgotten_guard!(handle.last_to(9), Ok(Some((5, 53))));
    after_a_forgotten_guard!(handle.hold(5).unwrap().map(|held| held.value()), Some(53));
    after_a_forgotten_guard!(handle.enter(6).unwrap().key(), 6);
    after_a_forgotten_guard!(handle.wait(..), Ok(()));
    after_a_forgotten_guard!(handle.begin(..).is_ok(), true);
    after_a_forgotten_guard!(handle.tidy(.., 1), Ok(Tidied { made: 0, next: None }));
    let cookie = handle.begin(..).unwrap();
    after_a_forgotten_guard!(handle.poll(cookie), Ok(GracePeriod::Over));
    after_a_forgotten_guard!(handle.remove(5), Ok(Some(53)));
    handle.insert(5, 54).unwrap();
    forget(handle.hold(5).unwrap().unwrap());
    drop(handle);
    assert_eq!((index.free_handles(), other.wait(..)), (1, Ok(())));
}

/// The removal has its turn and waits for the forgotten section, since its node has two children and the section's key is the next one.
#[test]
fn a_forgotten_section_is_left_before_its_handle_waits_for_a_turn() {
    let index = Index::builder(100, 2).updates_in_turn(true).build().unwrap();
    let (mut reader, writer) = (index.handle().unwrap(), index.handle().unwrap());
    for key in [5, 3, 7] {
        reader.insert(key, key).unwrap();
    }
    forget(reader.hold(7).unwrap().unwrap());
    thread::scope(|scope| {
        scope.spawn(move || assert_eq!(writer.remove(5), Ok(Some(5))));
        thread::sleep(Duration::from_millis(20));
        assert_eq!(reader.insert(9, 9), Ok(true));
    });
}

/// Each pair that goes stands at the end of its way, so its removal keeps back one slot. The guard stays until all are gone; where they wait for
/// it, it goes after a time.
#[test]
fn removals_go_on_beside_a_guard_that_stays() {
    const REMOVALS: u64 = 4_000;
    for waiter in WAITERS {
        let index = Index::builder(10, 2).waiter(waiter).keep(4_096).build().unwrap();
        let (mut reader, writer) = (index.handle().unwrap(), index.handle().unwrap());
        writer.insert(0, 7).unwrap();
        let (is_held, are_gone) = (Barrier::new(2), AtomicBool::new(false));
        thread::scope(|scope| {
            let (is_held, are_gone) = (&is_held, &are_gone);
            let reading = scope.spawn(move || {
                let held = reader.hold(0).unwrap().unwrap();
                is_held.wait();
                let begun = Instant::now();
                while !are_gone.load(SeqCst) && begun.elapsed() < Duration::from_secs(20) {
                    thread::sleep(Duration::from_millis(1));
                }
                assert!(are_gone.load(SeqCst), "removals wait for the guard");
                held.value()
            });
            is_held.wait();
            for round in 0..REMOVALS {
                let key = 1 + round % 9;
                assert_eq!(writer.insert(key, round), Ok(true));
                assert_eq!(writer.remove(key), Ok(Some(round)));
            }
            assert_eq!((writer.stats().kept, writer.stats().room), (REMOVALS, 4_096));
            are_gone.store(true, SeqCst);
            assert_eq!(reading.join().unwrap(), 7);
        });
        // Nobody reads any more, so what is kept back goes back.
        for round in 0..REMOVALS {
            assert_eq!((writer.insert(5, round), writer.remove(5)), (Ok(true), Ok(Some(round))));
        }
        assert!(writer.stats().kept < 4_096);
    }
}

#[test]
fn a_tree_is_tidied_range_by_range() {
    let index = Index::new(2_000, 1).unwrap();
    let handle = index.handle().unwrap();
    for key in 0..2_000 {
        handle.insert(key, !key).unwrap();
    }
    let before = handle.list(..).unwrap();
    let (mut calls, mut from) = (0, Some(0));
    while let Some(low) = from {
        let told = handle.tidy(low.., 1_000).unwrap();
        assert!(told.next.map_or(true, |next| next > low), "{told:?} from {low}");
        calls += 1;
        from = told.next;
    }
    assert!(calls >= 2_000 / 256, "{calls}");
    assert_eq!(handle.list(..), Ok(before));
    assert_eq!(handle.tidy(5..5, 4), Ok(Tidied { made: 0, next: None }));
    assert!(handle.tidy(5..6, 0).is_ok());
}

/// How many turns make the tree of some keys the one of its index's salt.
fn turns_of(builder: Builder) -> u64 {
    let handle = builder.build().unwrap().handle().unwrap();
    for i in 0..1_000 {
        handle.insert(i * 617 % 1_000, i).unwrap();
    }
    let (mut made, mut from) = (0, Some(0));
    while let Some(low) = from {
        let told = handle.tidy(low.., u32::MAX).unwrap();
        made += u64::from(told.made);
        from = told.next;
    }
    made
}

#[test]
fn a_fixed_salt_makes_the_same_tree_and_drawn_ones_make_others() {
    let builder = Index::builder(1_000, 1);
    assert_eq!(turns_of(builder.salt(5)), turns_of(builder.salt(5)));
    assert_ne!(turns_of(builder.salt(5)), turns_of(builder.salt(6)));
    let drawn = turns_of(builder);
    assert!((0..10).any(|_| turns_of(builder) != drawn));
}

#[test]
fn a_turn_takes_free_slots() {
    let index = Index::new(2_000, 1).unwrap();
    let handle = index.handle().unwrap();
    // As many pairs as there are slots, with those for what the handle may keep back.
    let slots = handle.stats().slots;
    for i in 0..slots {
        let key = i * 1_237 % slots;
        assert_eq!(handle.insert(key, !key), Ok(true));
    }
    let mut told = handle.tidy(.., 1_000);
    while let Ok(Tidied { next: Some(next), .. }) = told {
        told = handle.tidy(next.., 1_000);
    }
    assert_eq!(told, Err(Error::Full));
    assert_eq!(handle.list(..).unwrap().len() as u64, slots);
}
