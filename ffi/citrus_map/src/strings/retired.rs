//! What a handle took out, and what is to be done with it when its readers are gone.

use super::keys::SCANS;
use super::map::StringMapHandle;
use super::nodes::{GivenUp, OwnMark, TakenOut};
use crate::waits::{Cookie, GracePeriod};
use crate::{Error, MOST_RETIRED};
use std::mem::{swap, take};

/// From so many on it begins a wait for their readers, and asks for that at later calls. Rounds of drawn schedules are short.
const SOME_RETIRED: usize = if cfg!(test) { 1 } else { 16 };

/// Objects that were taken out, and marks that were put in.
pub(super) struct Batch<V> {
    pub(super) objects: Vec<TakenOut<V>>,
    pub(super) marks: Vec<OwnMark>,
}

impl<V> Default for Batch<V> {
    fn default() -> Batch<V> {
        Batch { objects: Vec::new(), marks: Vec::new() }
    }
}

impl<V> Batch<V> {
    fn len(&self) -> usize {
        self.objects.len() + self.marks.len()
    }

    /// The least key of the sections in which they may have been found, where there are some. The greatest is that of scans.
    fn low(&self) -> Option<u64> {
        let objects = self.objects.iter().map(|object| object.section);
        objects.chain(self.marks.iter().map(|mark| mark.place().section)).min()
    }
}

/// What a handle took out and hasn't given up.
pub(super) struct Kept<V> {
    /// Those for whose readers a wait was begun, and the wait.
    leaving: Batch<V>,
    begun: Option<Cookie>,
    /// Those that came later.
    pub(super) waiting: Batch<V>,
}

impl<V> Default for Kept<V> {
    fn default() -> Kept<V> {
        Kept { leaving: Batch::default(), begun: None, waiting: Batch::default() }
    }
}

impl<V> Kept<V> {
    pub(super) fn into_batches(self) -> [Batch<V>; 2] {
        [self.leaving, self.waiting]
    }
}

impl<V> StringMapHandle<V> {
    /// Waits for the readers of a leaf that this handle took out, and gives its value. Where that fails the leaf stays retired.
    pub(super) fn outwait(&mut self, leaf: TakenOut<V>) -> Result<V, Error> {
        // The waits below take the place of the one that was begun.
        self.ask();
        let key = leaf.section;
        if let Err(cause) = self.domain.wait(key..=key).and_then(|()| self.domain.wait(SCANS..=SCANS)) {
            self.kept.waiting.objects.push(leaf);
            return Err(cause);
        }
        // The marks that were put in place before the wait for this key. Where one can't be finished now it stays for a later call.
        let (marks, others) = take(&mut self.kept.waiting.marks).into_iter().partition(|mark| mark.place().section == key);
        self.kept.waiting.marks = others;
        let _ = self.finish_all(marks);
        // SAFETY: this handle took it out, and then waited for its section's key and for scans (`begun`, `polled`).
        let value = match unsafe { leaf.into_given_up() } {
            GivenUp::Leaf(leaf) => leaf.into_value(),
            _ => unreachable!("a leaf was taken out"),
        };
        self.see_to_others();
        Ok(value)
    }

    /// Keeps a leaf that this handle took out for later calls.
    pub(super) fn retired(&mut self, leaf: TakenOut<V>) {
        self.kept.waiting.objects.push(leaf);
        self.ask();
        self.see_to_others();
    }

    /// Waits for the readers of all values that this handle took out, and drops them.
    ///
    /// # Errors
    /// [`Error::Holds`], [`Error::Spent`], [`Error::Lost`]: then they stay retired.
    pub fn flush(&mut self) -> Result<(), Error> {
        loop {
            if self.kept.leaving.len() == 0 {
                swap(&mut self.kept.leaving, &mut self.kept.waiting);
            }
            match self.kept.leaving.low() {
                Some(low) => self.domain.wait(low..=SCANS)?,
                None => return Ok(()),
            }
            // SAFETY: they were taken out before the wait for the keys of all and for scans, which is over.
            unsafe { self.give_up_leaving() }?;
        }
    }

    /// Sees to those that are leaving where the wait for their readers is over.
    fn ask(&mut self) {
        match self.kept.begun.map(|begun| self.domain.poll(begun)) {
            None | Some(Ok(GracePeriod::UnderWay)) => {}
            Some(Ok(GracePeriod::Over)) => {
                // SAFETY: the wait was begun when they had been taken out, for the keys of all and for scans. What fails stays for a later call.
                let _ = unsafe { self.give_up_leaving() };
            }
            Some(Ok(GracePeriod::Displaced) | Err(_)) => self.kept.begun = None,
        }
    }

    /// Begins a wait for those that are leaving where none is under way, or for the next ones where there are some; and waits where there are many.
    fn see_to_others(&mut self) {
        if self.kept.leaving.len() == 0 && self.kept.waiting.len() >= SOME_RETIRED {
            swap(&mut self.kept.leaving, &mut self.kept.waiting);
        }
        if let (None, Some(low)) = (self.kept.begun, self.kept.leaving.low()) {
            self.kept.begun = self.domain.begin(low..=SCANS).ok();
        }
        if self.kept.leaving.len() + self.kept.waiting.len() >= MOST_RETIRED {
            // Where it fails they stay.
            let _ = self.flush();
        }
    }

    /// Drops the objects that are leaving, and finishes the marks.
    ///
    /// # Safety
    /// A wait that was begun after they had been taken out is over, for their keys and for scans.
    unsafe fn give_up_leaving(&mut self) -> Result<(), Error> {
        self.kept.begun = None;
        let Batch { objects, marks } = take(&mut self.kept.leaving);
        // SAFETY: so says the caller.
        let gone: Vec<GivenUp<V>> = objects.into_iter().map(|object| unsafe { object.into_given_up() }).collect();
        for object in &gone {
            if let GivenUp::Layer(layer) = object {
                self.ways.shared.numbers.put_back(layer.number());
            }
        }
        let told = self.finish_all(marks);
        // Last, since the values may panic.
        drop(gone);
        told
    }

    /// Finishes the marks, behind a wait for their keys that was begun after they had been put in. One that fails waits once more; its cause is told.
    fn finish_all(&mut self, marks: Vec<OwnMark>) -> Result<(), Error> {
        let mut told = Ok(());
        for mark in marks {
            told = self.finish(mark).and(told);
        }
        told
    }

    fn finish(&mut self, mark: OwnMark) -> Result<(), Error> {
        let waiting = &mut self.kept.waiting;
        let told = self.domain.enter(mark.place().section).and_then(|within| {
            let finished = self.ways.finish(&within, &mark)?;
            waiting.objects.extend(finished.layer);
            waiting.marks.extend(self.ways.mark_where(finished.may_be_empty, &within, &mark.place().prefix));
            Ok(())
        });
        match told {
            Ok(()) => waiting.objects.push(mark.into_taken_out()),
            Err(_) => waiting.marks.push(mark),
        }
        told
    }
}

#[cfg(test)]
mod tests {
    use super::*;
    use crate::StringMap;

    /// Who removes strings, and waits for each, gives up the layers too without a flush: so their numbers are used again.
    #[test]
    fn removes_leave_little_behind() {
        let map = StringMap::new(100, 1).unwrap();
        let mut handle = map.handle().unwrap();
        for _ in 0..1_000 {
            handle.insert("begins alike", 1).unwrap();
            handle.insert("begins as the other", 2).unwrap();
            assert_eq!((handle.remove("begins alike"), handle.remove("begins as the other")), (Ok(Some(1)), Ok(Some(2))));
            assert!(map.layers() == 0 && handle.kept.leaving.len() + handle.kept.waiting.len() < MOST_RETIRED);
        }
        assert!(map.shared.numbers.take().unwrap() < MOST_RETIRED as u64);
    }
}
