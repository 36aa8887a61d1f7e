//! What a string map and its handles share.

use super::keys::MOST_LAYERS;
use super::nodes::{left_over, GivenUp, OwnMark, TakenOut};
use super::retired::Kept;
use crate::{Error, Index};
use std::mem::take;
use std::sync::atomic::{AtomicBool, AtomicU64, Ordering::SeqCst};
use std::sync::{Mutex, MutexGuard, PoisonError};

/// How many pairs are listed at a time where a map is dropped.
const PAGE: usize = 256;

/// What a map and its handles share. Its end is that of the last of them.
pub(super) struct Shared<V> {
    pub(super) index: Index,
    /// The index whose handles have the sections.
    pub(super) domain: Index,
    /// What each handle, by its place in the domain, took out and hasn't given up: here while nobody has the handle. The lock also makes `V`
    /// invariant, as it has to be since a `&StringMap<V>` takes values.
    kept: Vec<Mutex<Kept<V>>>,
    pub(super) numbers: Numbers,
    /// How many layers are in the index.
    pub(super) layers: AtomicU64,
    /// What nobody finds may be in the index, since a call that was to take it out again was refused: the handle was spent, or lost.
    pub(super) is_torn: AtomicBool,
}

impl<V> Shared<V> {
    pub(super) fn new(index: Index, domain: Index) -> Shared<V> {
        let kept = (0..domain.handles()).map(|_| Mutex::default()).collect();
        Shared { index, domain, kept, numbers: Numbers::default(), layers: AtomicU64::new(0), is_torn: AtomicBool::new(false) }
    }

    pub(super) fn kept(&self, place: usize) -> MutexGuard<'_, Kept<V>> {
        self.kept[place].lock().unwrap_or_else(PoisonError::into_inner)
    }

    /// Adds the objects of all pairs that the index has.
    ///
    /// # Safety
    /// No handle is out, and none is taken later; and each mark that the index has is there.
    unsafe fn take_all(&self, objects: &mut Vec<TakenOut<V>>) -> Result<(), Error> {
        let handle = self.index.handle()?;
        let mut from = Some(0);
        while let Some(low) = from {
            let page = handle.page(low.., PAGE)?;
            // SAFETY: each page is exact (`listed`) and tells the keys after those before it: so each pair is told once.
            objects.extend(page.pairs.iter().map(|(_, word)| unsafe { left_over(*word) }));
            from = page.next;
        }
        Ok(())
    }
}

impl<V> Drop for Shared<V> {
    fn drop(&mut self) {
        let mut objects: Vec<TakenOut<V>> = Vec::new();
        if !self.is_torn.load(SeqCst) {
            // SAFETY: each handle that is out has an `Arc` of this. Marks are given up below. Where the pairs can't be listed, for want of memory
            // or of a handle that isn't used up, the rest is leaked.
            let _ = unsafe { self.take_all(&mut objects) };
        }
        let kept: Vec<Kept<V>> = (0..self.kept.len()).map(|place| take(&mut *self.kept(place))).collect();
        let (retired, marks): (Vec<_>, Vec<_>) =
            kept.into_iter().flat_map(Kept::into_batches).map(|batch| (batch.objects, batch.marks)).unzip();
        objects.extend(retired.into_iter().flatten());
        // SAFETY: no handle is left, and so no reader: a guard borrows a handle.
        drop(objects.into_iter().map(|object| unsafe { object.into_given_up() }).collect::<Vec<GivenUp<V>>>());
        // SAFETY: as above.
        marks.into_iter().flatten().for_each(|mark: OwnMark| unsafe { mark.forget() });
    }
}

/// The numbers of layers, which are given out again.
#[derive(Default)]
pub(super) struct Numbers(Mutex<Free>);

#[derive(Default)]
struct Free {
    given_back: Vec<u64>,
    /// From this one on none was given out.
    next: u64,
}

impl Numbers {
    fn free(&self) -> MutexGuard<'_, Free> {
        self.0.lock().unwrap_or_else(PoisonError::into_inner)
    }

    /// A number that no layer has.
    ///
    /// # Errors
    /// [`Error::Full`] where each is out.
    pub(super) fn take(&self) -> Result<u64, Error> {
        let mut free = self.free();
        if let Some(number) = free.given_back.pop() {
            return Ok(number);
        }
        if free.next == MOST_LAYERS {
            return Err(Error::Full);
        }
        free.next += 1;
        Ok(free.next - 1)
    }

    pub(super) fn put_back(&self, number: u64) {
        self.free().given_back.push(number);
    }
}

#[cfg(test)]
mod tests {
    use super::*;

    #[test]
    fn numbers_are_given_out_again() {
        let numbers = Numbers::default();
        assert_eq!((numbers.take(), numbers.take()), (Ok(0), Ok(1)));
        numbers.put_back(0);
        assert_eq!((numbers.take(), numbers.take()), (Ok(0), Ok(2)));
        numbers.free().next = MOST_LAYERS;
        assert_eq!(numbers.take(), Err(Error::Full));
        numbers.put_back(7);
        assert_eq!(numbers.take(), Ok(7));
    }
}
