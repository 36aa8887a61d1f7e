//! An index of numbers, or of strings, that speaks a part of Redis's protocol, over `citrus_map`. The README says which commands there are.
//!
//! [`parser`] makes requests of bytes, [`commands`] makes commands of requests, which are answered by a [`store`], which has a handle
//! of the index and the [`entries`] of keys with a deadline, or by a handle of a string map, and [`replies`] makes bytes of answers. [`server`] hands connections over to
//! workers: each is a thread with a handle and many connections, for which it waits by a call of the [`system`], the only module with unsafe
//! code.

#![deny(unsafe_code)]
#![deny(missing_docs)]

mod answers;
mod census;
mod clock;
pub mod commands;
mod connection;
mod counts;
mod cursors;
pub mod deadlines;
pub mod entries;
pub mod files;
mod glob;
mod info;
pub mod inline;
pub mod keys;
mod pairs;
pub mod parser;
pub mod refusals;
pub mod replies;
mod requests;
pub mod server;
mod session;
pub mod session_commands;
pub mod store;
mod strings;
#[allow(unsafe_code)]
pub mod system;
mod warnings;
mod words;
mod worker;
