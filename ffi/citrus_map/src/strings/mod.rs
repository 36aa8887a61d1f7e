//! A map whose keys are strings, or any bytes, over two indexes.
//!
//! A pair of the first one leads to a leaf, which is a string with its value, or to a layer, where strings stand that begin alike ([`keys`]). The
//! other index, which stays empty, has the sections: one with the string's first slice for each call, so that all who may come to an object say
//! one key, and one for whoever goes through many. Who takes an object out waits for both ([`nodes`]), and compares with addresses in a section
//! alone, where none is given out again. [`ways`] has the updates, of which there are five kinds.

#[cfg(test)]
mod drawn;
mod keys;
mod map;
mod map_lists;
mod nodes;
mod range;
mod retired;
mod scan;
mod shared;
mod ways;

pub use map::{Change, StringGuard, StringMap, StringMapHandle};
pub use range::{Prefix, StringRange};
