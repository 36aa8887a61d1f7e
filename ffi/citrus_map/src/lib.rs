//! Concurrent ordered maps for programs that read far more often than they write. Lookups take no lock.
//!
//! An [`Index`] has keys and values that are a `u64` each:
//!
//! ```
//! use citrus_map::Index;
//!
//! let index = Index::new(10_000, 4)?;
//! std::thread::scope(|scope| {
//!     for who in 0..4 {
//!         let handle = index.handle().unwrap();
//!         scope.spawn(move || {
//!             for round in 0..100 {
//!                 handle.insert(4 * round + who, round).unwrap();
//!             }
//!         });
//!     }
//! });
//! let handle = index.handle()?;
//! assert_eq!(handle.get(7)?, Some(1));
//! assert_eq!(handle.list(..3)?, [(0, 0), (1, 0), (2, 0)]);
//! assert_eq!(handle.remove(7)?, Some(1));
//! # Ok::<(), citrus_map::Error>(())
//! ```
//!
//! A [`Map`] has values of any type that threads may share. A reader has a `&` to the value itself, and who takes a value out has it once
//! nobody reads it any more:
//!
//! ```
//! use citrus_map::Map;
//!
//! let map = Map::new(10_000, 4)?;
//! let mut handle = map.handle()?;
//! handle.insert(7, vec![1, 2, 3])?;
//! assert_eq!(handle.get(7)?.unwrap().len(), 3);
//! assert_eq!(handle.remove(7)?, Some(vec![1, 2, 3]));
//! # Ok::<(), citrus_map::Error>(())
//! ```
//!
//! A [`KeyedIndex`] and a [`KeyedMap`] have keys of other types, in their order: whatever has the trait [`Key`], as integers, floating numbers,
//! and tuples and arrays of them that have 64 bits together at most.
//!
//! ```
//! use citrus_map::KeyedIndex;
//!
//! let index = KeyedIndex::<(i32, f32)>::new(10_000, 4)?;
//! index.insert((-1, 2.5), 7)?;
//! assert_eq!(index.lend()?.list((-1, 0.0)..(0, 0.0))?, [((-1, 2.5), 7)]);
//! # Ok::<(), citrus_map::Error>(())
//! ```
//!
//! A [`StringMap`] has strings, or any bytes, as keys, in their order:
//!
//! ```
//! use citrus_map::{Prefix, StringMap};
//!
//! let map = StringMap::new(10_000, 4)?;
//! let mut handle = map.handle()?;
//! handle.insert("user:7", 70)?;
//! assert_eq!(handle.for_each(Prefix("user:"), |_, age| assert_eq!(*age, 70))?, 1);
//! # Ok::<(), citrus_map::Error>(())
//! ```
//!
//! Each has a pool of up to 1,024 handles. Each thread takes a [`Handle`] or a [`MapHandle`] and makes its calls with that; the handle goes back
//! to the pool when it is dropped. Or it calls by the index itself, which lends it a handle for the call: see [`Index::lend`].
//!
//! # While a value is read
//! A [`Guard`] of a map, and a [`Section`] or [`Held`] of an index, is for a moment, as the guard of a lock. Removals may wait for the readers near
//! their key, with locks, and updates for all where their handle has no room for more slots ([`Builder::keep`]), or no slot is free. So:
//! - the handle that has a guard makes no other call: that doesn't compile;
//! - its thread makes no update and no wait by another handle of the same map: these answer [`Error::Holds`] and do nothing. Lookups, lists and
//!   guards by another handle are free;
//! - what the thread waits for meanwhile, as another lock, a channel or another map's update, mustn't in its turn wait for an update of this
//!   map. As with any lock, nothing tests this.
//!
//! A guard that is forgotten, as by [`std::mem::forget`], is there until its handle makes a call or is dropped. A thread to which a handle was
//! sent after that isn't known to have a guard: an update by another handle may wait there for good.
//!
//! # What is proved
//! The work is done by the static library `citrus` (`citrus.h`), the CITRUS search tree of Arbel and Attiya ("Concurrent updates with RCU:
//! search tree as an example", PODC 2014) with predicate RCU. Its functions are proved, each to answer as a map of one thread does at a
//! moment of the call. So is the law on which a [`Map`] rests, `outlives_its_holders` of the crate `tree_handles`: once a wait for a key is
//! over that its remover began, who found the removed value has left its section. Nothing checks this crate against those proofs. It is some
//! hundred lines of Rust that keep what the header asks of a caller, and tests; each `unsafe` says which clause or law carries it.
//!
//! # What it costs
//! - All memory is taken when the index is made, but for lists, which take theirs by the call, and a map's values, each in a box of its own.
//! - The tree stays shallow in whatever order keys come: an insertion that went deep turns nodes on its way. How deep it is isn't proved, and
//!   who chooses keys by the library's rule can make it a path.
//! - A removal may wait for lookups under way near its key, and waits for all lookups and lists under way where its handle keeps back as many
//!   slots as it may, as does an insertion that would need turns then: [`Builder::keep`].
//! - Where another thread has the lock of a node, an update yields the processor, or sleeps, and tries again; a removal that has locks itself
//!   spins. With many more threads that update than processors updates may take turns: [`Builder::updates_in_turn`].
//! - A list that updates came in between in four tries keeps them off for a walk, some 30 ns a pair: see [`Handle::page`].
//!
//! # Limits
//! An index for 1,073,672,192 pairs, 1,024 handles, and 2^53 updates divided by the number of handles. No call from a signal handler, or from the
//! child of a `fork` of a program with threads.
//!
//! The crate needs Rust 1.63 and, to be linked, the library, which `build.rs` finds by pkg-config (`citrus.pc`) or in the folder
//! `CITRUS_LIB_DIR`.

#![deny(missing_docs)]
#![deny(unsafe_op_in_unsafe_fn)]

mod error;
mod guards;
mod handle;
mod hazards;
mod index;
mod key;
mod lanes;
mod lent;
mod library;
mod lists;
mod map;
mod map_lists;
mod map_ranges;
mod node;
mod pool;
mod ranges;
mod rest;
#[cfg(test)]
mod schedule;
mod sections;
#[cfg(test)]
mod spent;
mod strings;
mod turns;
mod waits;

pub use error::Error;
pub use guards::{Held, Section};
pub use handle::{Handle, KeyedHandle, Stats};
pub use index::{Builder, Index, KeyedIndex, Waiter};
pub use key::Key;
pub use lanes::{Lanes, LANES};
pub use lent::Lent;
pub use lists::Page;
pub use map::{Guard, KeyedMap, KeyedMapHandle, Map, MapHandle, Refused, MOST_RETIRED};
pub use map_ranges::MapRange;
pub use ranges::Range;
pub use strings::{Change, Prefix, StringGuard, StringMap, StringMapHandle, StringRange};
pub use waits::{Cookie, GracePeriod, Tidied};

/// The greatest number of pairs that an index can be made for.
pub const MAX_PAIRS: u32 = 1_073_672_192;
/// The greatest number of handles of an index.
pub const MAX_HANDLES: u32 = 1_024;
/// The greatest number of pairs that one list tells.
pub const MAX_ROOM: usize = 1 << 30;

/// The tickets of an index.
const ALL_TICKETS: u64 = 1 << 57;

/// The README's program is tried with the other examples.
#[cfg(doctest)]
#[doc = include_str!("../README.md")]
struct Readme;
