//! A map under a lock of any kind.

use crate::measuring::{Client, Map};
use crate::mixes::Op;
use std::collections::btree_map::Entry;
use std::collections::BTreeMap;
use std::sync::Arc;

pub type Pairs = BTreeMap<u64, u64>;

/// A lock with pairs in it.
pub trait Lock: Default + Sync {
    /// Does something with the pairs, beside others that do so too where the lock is one of readers and writers.
    fn read<T>(&self, work: impl FnOnce(&Pairs) -> T) -> T;

    /// Does something with the pairs, alone.
    fn write<T>(&self, work: impl FnOnce(&mut Pairs) -> T) -> T;
}

impl Lock for std::sync::Mutex<Pairs> {
    fn read<T>(&self, work: impl FnOnce(&Pairs) -> T) -> T {
        work(&self.lock().expect("no thread panics"))
    }

    fn write<T>(&self, work: impl FnOnce(&mut Pairs) -> T) -> T {
        work(&mut self.lock().expect("no thread panics"))
    }
}

impl Lock for std::sync::RwLock<Pairs> {
    fn read<T>(&self, work: impl FnOnce(&Pairs) -> T) -> T {
        work(&std::sync::RwLock::read(self).expect("no thread panics"))
    }

    fn write<T>(&self, work: impl FnOnce(&mut Pairs) -> T) -> T {
        work(&mut std::sync::RwLock::write(self).expect("no thread panics"))
    }
}

#[cfg(feature = "parking_lot")]
impl Lock for parking_lot::Mutex<Pairs> {
    fn read<T>(&self, work: impl FnOnce(&Pairs) -> T) -> T {
        work(&self.lock())
    }

    fn write<T>(&self, work: impl FnOnce(&mut Pairs) -> T) -> T {
        work(&mut self.lock())
    }
}

#[cfg(feature = "parking_lot")]
impl Lock for parking_lot::RwLock<Pairs> {
    fn read<T>(&self, work: impl FnOnce(&Pairs) -> T) -> T {
        work(&parking_lot::RwLock::read(self))
    }

    fn write<T>(&self, work: impl FnOnce(&mut Pairs) -> T) -> T {
        work(&mut parking_lot::RwLock::write(self))
    }
}

/// The pairs under the lock.
#[derive(Default)]
pub struct Locked<L>(Arc<L>);

impl<L: Lock + Send> Map for Locked<L> {
    type Client = Locked<L>;

    fn client(&self) -> Locked<L> {
        Locked(Arc::clone(&self.0))
    }
}

impl<L: Lock> Client for Locked<L> {
    fn call(&mut self, op: Op) -> u64 {
        match op {
            Op::Get { key } => self.0.read(|pairs| pairs.get(&key).copied().unwrap_or(0)),
            Op::Del { key } => self.0.write(|pairs| u64::from(pairs.remove(&key).is_some())),
            Op::Put { key, value } => self.0.write(|pairs| match pairs.entry(key) {
                Entry::Occupied(_) => 0,
                Entry::Vacant(entry) => {
                    entry.insert(value);
                    1
                }
            }),
        }
    }
}
