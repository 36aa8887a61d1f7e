//! The handles of an index that nobody has, and which of them a thread takes.

use crate::library::{RawHandle, RawLanes};
use crate::sections::{number_of_this_thread, Sections};
use crate::turns::Turns;
use std::cell::{Cell, UnsafeCell};
use std::mem::replace;
use std::sync::atomic::{AtomicBool, AtomicU64, Ordering::*};
use std::sync::{Mutex, MutexGuard, PoisonError};

/// A handle of the library, and its place among those of the index, from 0 on.
pub(crate) struct Placed {
    pub(crate) raw: RawHandle,
    pub(crate) place: usize,
}

/// What all handles of an index share beside the library's index.
pub(crate) struct Pool {
    /// The handles, those that somebody has and those that nobody has.
    places: Box<[Place]>,
    /// The lanes that nobody has.
    free_lanes: Mutex<Vec<RawLanes>>,
    /// The threads that are in sections of the index.
    pub(crate) sections: Sections,
    /// The turns of updates, where they take turns.
    pub(crate) turns: Option<Turns>,
    /// No two indexes of the process have the same number.
    pub(crate) number: u64,
}

/// A handle's place. In lines of its own it doesn't take them from other threads' places.
#[repr(align(128))]
struct Place {
    is_out: AtomicBool,
    /// The handle, while nobody has it, and else a closed one.
    raw: UnsafeCell<RawHandle>,
}

// SAFETY: who turns `is_out` to true has `raw` alone until it stores false, and these two order what each thread does with it.
unsafe impl Sync for Place {}

impl Place {
    fn new(raw: RawHandle) -> Place {
        Place { is_out: AtomicBool::new(false), raw: UnsafeCell::new(raw) }
    }

    /// Whether it was free. Then the caller has it until it puts a handle back.
    #[inline]
    fn take(&self) -> bool {
        !self.is_out.load(Relaxed) && !self.is_out.swap(true, Acquire)
    }

    /// # Safety
    /// The caller has the place.
    #[inline]
    unsafe fn handle(&self) -> RawHandle {
        // SAFETY: nobody else uses it before `is_out` is false again.
        replace(unsafe { &mut *self.raw.get() }, RawHandle::CLOSED)
    }

    /// # Safety
    /// The caller has the place, and doesn't afterwards. The handle is from here.
    #[inline]
    unsafe fn put_back(&self, raw: RawHandle) {
        // SAFETY: as above. What stands there is closed, so nothing is owed for it.
        unsafe { self.raw.get().write(raw) };
        self.is_out.store(false, Release);
    }
}

/// Where a thread had a handle of an index last. It is a hint alone: it keeps nothing from others, and may lead to an index that is closed.
#[derive(Clone, Copy)]
struct Home {
    index: u64,
    place: usize,
}

/// Of so many indexes a thread knows its home; of two whose numbers are alike but for a multiple of it, that of the later one.
const HOMES: usize = 16;
const NO_HOME: Home = Home { index: u64::MAX, place: 0 };

thread_local! {
    static HOMES_OF_THIS_THREAD: Cell<[Home; HOMES]> = const { Cell::new([NO_HOME; HOMES]) };
}

impl Pool {
    pub(crate) fn new(handles: Vec<RawHandle>, lanes: Vec<RawLanes>, turns: Option<Turns>) -> Pool {
        static NEXT: AtomicU64 = AtomicU64::new(0);
        let sections = Sections::new(handles.len());
        let places = handles.into_iter().map(Place::new).collect();
        Pool { places, free_lanes: Mutex::new(lanes), sections, turns, number: NEXT.fetch_add(1, Relaxed) }
    }

    /// # Safety
    /// The caller has taken the place, and takes its handle for the first time since.
    #[inline]
    unsafe fn placed(&self, place: usize) -> Placed {
        // SAFETY: as above.
        Placed { raw: unsafe { self.places[place].handle() }, place }
    }

    /// Takes a handle that nobody has, for long.
    pub(crate) fn take(&self) -> Option<Placed> {
        let place = (0..self.places.len()).rev().find(|place| self.places[*place].take())?;
        // SAFETY: it was just taken.
        Some(unsafe { self.placed(place) })
    }

    /// Takes a handle that nobody has, for a call: that which this thread had last where it is there, so that each thread comes to have one
    /// of its own while there are enough.
    #[inline]
    pub(crate) fn take_for_a_call(&self) -> Option<Placed> {
        let place = HOMES_OF_THIS_THREAD.with(|homes| {
            let homes: &Cell<[Home]> = homes;
            let home = &homes.as_slice_of_cells()[self.number as usize % HOMES];
            let Home { index, place } = home.get();
            if index == self.number && self.places[place].take() {
                Some(place)
            } else {
                self.find_home(home)
            }
        })?;
        // SAFETY: it was just taken.
        Some(unsafe { self.placed(place) })
    }

    /// Takes a place where the thread has none, or another one has that: its next home.
    #[cold]
    fn find_home(&self, home: &Cell<Home>) -> Option<usize> {
        let Home { index, place } = home.get();
        let first = if index == self.number { place } else { number_of_this_thread() as usize % self.places.len() };
        let place = (first..self.places.len()).chain(0..first).find(|place| self.places[*place].take())?;
        home.set(Home { index: self.number, place });
        Some(place)
    }

    /// Takes a handle back.
    ///
    /// # Safety
    /// It was taken from here.
    #[inline]
    pub(crate) unsafe fn put_back(&self, Placed { raw, place }: Placed) {
        // SAFETY: who takes a handle has its place until here.
        unsafe { self.places[place].put_back(raw) };
    }

    /// How many handles nobody has at this moment.
    pub(crate) fn free_handles(&self) -> usize {
        self.places.iter().filter(|place| !place.is_out.load(Relaxed)).count()
    }

    fn free_lanes(&self) -> MutexGuard<'_, Vec<RawLanes>> {
        self.free_lanes.lock().unwrap_or_else(PoisonError::into_inner)
    }

    pub(crate) fn take_lanes(&self) -> Option<RawLanes> {
        self.free_lanes().pop()
    }

    /// Takes lanes back, for which there is room, since they were here before.
    pub(crate) fn put_lanes_back(&self, raw: RawLanes) {
        self.free_lanes().push(raw);
    }
}
