//! The C library, as its header `citrus.h` declares it.

use std::ffi::c_void;
use std::mem::size_of;
use std::ptr::null_mut;

/// What C calls a `citrus_handle`: closed, or open on an index. It is closed when it is dropped.
#[repr(C)]
pub(crate) struct RawHandle {
    at: *mut c_void,
}

impl RawHandle {
    pub(crate) const CLOSED: RawHandle = RawHandle { at: null_mut() };
}

// SAFETY: a handle may go from thread to thread, and so says the header. What moves it here is safe Rust, which orders the calls.
unsafe impl Send for RawHandle {}

impl Drop for RawHandle {
    fn drop(&mut self) {
        // SAFETY: the handle is closed or as the last call left it, and nobody else has it.
        unsafe { citrus_close(self) }
    }
}

/// What C calls `citrus_options`, as the first version of its header has it.
#[repr(C)]
pub(crate) struct RawOptions {
    size: usize,
    pub(crate) pairs: u32,
    pub(crate) handles: u32,
    pub(crate) waiter: u32,
    flags: u32,
    pub(crate) salt: u64,
}

impl RawOptions {
    pub(crate) fn new(pairs: u32, handles: u32, waiter: u32, salt: u64) -> RawOptions {
        RawOptions { size: size_of::<RawOptions>(), pairs, handles, waiter, flags: 0, salt }
    }
}

/// What C calls a `citrus_numbers`, as the first version of its header has it.
#[repr(C)]
#[derive(Clone, Copy, Default)]
pub(crate) struct RawStats {
    size: usize,
    pub(crate) slots: u64,
    pub(crate) free: u64,
    pub(crate) waits: u64,
    pub(crate) tickets: u64,
    pub(crate) kept: u64,
    pub(crate) room: u64,
    pub(crate) handles: u32,
    pub(crate) unshared: u32,
}

impl RawStats {
    pub(crate) fn new() -> RawStats {
        RawStats { size: size_of::<RawStats>(), ..RawStats::default() }
    }
}

/// What C calls a `citrus_pair`.
#[repr(C)]
#[derive(Clone, Copy)]
pub(crate) struct RawPair {
    pub(crate) key: u64,
    pub(crate) value: u64,
}

/// What C calls `citrus_lanes`: closed, or open on an index. They are closed when they are dropped.
#[repr(C)]
pub(crate) struct RawLanes {
    at: *mut c_void,
}

impl RawLanes {
    pub(crate) const CLOSED: RawLanes = RawLanes { at: null_mut() };
}

// SAFETY: as of a handle.
unsafe impl Send for RawLanes {}

impl Drop for RawLanes {
    fn drop(&mut self) {
        // SAFETY: as of a handle.
        unsafe { citrus_close_lanes(self) }
    }
}

/// What C calls a `citrus_answer`.
#[repr(C)]
#[derive(Clone, Copy, Default)]
pub(crate) struct RawAnswer {
    value: u64,
    found: u64,
}

impl RawAnswer {
    pub(crate) fn value(self) -> Option<u64> {
        (self.found != 0).then_some(self.value)
    }
}

pub(crate) mod status {
    pub(crate) const DONE: i32 = 0;
    pub(crate) const UNCHANGED: i32 = 1;
    pub(crate) const FULL: i32 = 2;
    pub(crate) const MORE: i32 = 3;
    pub(crate) const MOVED: i32 = 4;
    pub(crate) const NEW: i32 = 5;
    pub(crate) const DIFFERENT: i32 = 6;
    pub(crate) const BUSY: i32 = 7;
    pub(crate) const BAD_ARGUMENT: i32 = -2;
    pub(crate) const NO_MEMORY: i32 = -3;
    pub(crate) const SPENT: i32 = -4;
    pub(crate) const LOST: i32 = -5;
    pub(crate) const HOLDS: i32 = -6;
}

// Each handle is closed or as the last call with it left it, and one call at a time is made with it. The pointers of one call are distinct,
// and lead to memory of their type. Whatever else a call may ask the library tests itself.
extern "C" {
    pub(crate) fn citrus_open_with(handle: *mut RawHandle, options: *const RawOptions) -> i32;
    pub(crate) fn citrus_open_keeping(handle: *mut RawHandle, options: *const RawOptions, keep: u32) -> i32;
    pub(crate) fn citrus_share(handle: *mut RawHandle, handles: u32, tickets: u64, other: *mut RawHandle) -> i32;
    pub(crate) fn citrus_stats(handle: *mut RawHandle, stats: *mut RawStats) -> i32;
    pub(crate) fn citrus_close(handle: *mut RawHandle);
    pub(crate) fn citrus_get(handle: *mut RawHandle, key: u64, value: *mut u64) -> i32;
    pub(crate) fn citrus_insert_once(handle: *mut RawHandle, key: u64, value: u64) -> i32;
    pub(crate) fn citrus_replace_once(handle: *mut RawHandle, key: u64, value: u64, old: *mut u64) -> i32;
    pub(crate) fn citrus_compare_once(handle: *mut RawHandle, key: u64, expected: u64, value: u64, found: *mut u64) -> i32;
    pub(crate) fn citrus_upsert_once(handle: *mut RawHandle, key: u64, value: u64, old: *mut u64) -> i32;
    pub(crate) fn citrus_remove_once(handle: *mut RawHandle, key: u64, old: *mut u64) -> i32;
    pub(crate) fn citrus_take_once(handle: *mut RawHandle, key: u64, expected: u64, found: *mut u64) -> i32;
    pub(crate) fn citrus_list_once(
        handle: *mut RawHandle,
        low: u64,
        high: u64,
        pairs: *mut RawPair,
        room: usize,
        count: *mut usize,
        next: *mut u64,
    ) -> i32;
    pub(crate) fn citrus_list_down_once(
        handle: *mut RawHandle,
        low: u64,
        high: u64,
        pairs: *mut RawPair,
        room: usize,
        count: *mut usize,
        next: *mut u64,
    ) -> i32;
    pub(crate) fn citrus_first_once(handle: *mut RawHandle, low: u64, key: *mut u64, value: *mut u64) -> i32;
    pub(crate) fn citrus_last_once(handle: *mut RawHandle, low: u64, high: u64, key: *mut u64, value: *mut u64) -> i32;
    pub(crate) fn citrus_hold(handle: *mut RawHandle, key: u64, value: *mut u64) -> i32;
    pub(crate) fn citrus_enter(handle: *mut RawHandle, key: u64) -> i32;
    pub(crate) fn citrus_release(handle: *mut RawHandle) -> i32;
    pub(crate) fn citrus_begin(handle: *mut RawHandle, low: u64, high: u64, cookie: *mut u64) -> i32;
    pub(crate) fn citrus_poll(handle: *mut RawHandle, cookie: u64) -> i32;
    pub(crate) fn citrus_tidy_once(handle: *mut RawHandle, low: u64, high: u64, turns: u32, made: *mut u32, next: *mut u64) -> i32;
    pub(crate) fn citrus_open_lanes(handle: *mut RawHandle, lanes: *mut RawLanes, count: u32) -> i32;
    pub(crate) fn citrus_get_many(lanes: *mut RawLanes, keys: *const u64, count: usize, answers: *mut RawAnswer, room: usize) -> i32;
    pub(crate) fn citrus_close_lanes(lanes: *mut RawLanes);
}
