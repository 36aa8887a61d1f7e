//! Where scans of strings go on. Clients write a cursor as a number, so each one that was told stands for the least string that is left.

use std::collections::VecDeque;

/// So many are known at a time, the latest ones.
const MOST: usize = 1_024;

/// The cursors that were told. The first one has the number 1.
#[derive(Debug, Default)]
pub(crate) struct Cursors {
    /// How many were told and aren't known any more.
    gone: u64,
    places: VecDeque<Vec<u8>>,
}

impl Cursors {
    /// A new cursor for this place.
    pub(crate) fn tell(&mut self, place: Vec<u8>) -> u64 {
        if self.places.len() == MOST {
            self.places.pop_front();
            self.gone += 1;
        }
        self.places.push_back(place);
        self.gone + self.places.len() as u64
    }

    /// The place of a cursor that is known still.
    pub(crate) fn place(&self, cursor: u64) -> Option<&[u8]> {
        let at = usize::try_from(cursor.checked_sub(self.gone + 1)?).ok()?;
        self.places.get(at).map(Vec::as_slice)
    }
}

#[cfg(test)]
mod tests {
    use super::*;

    #[test]
    fn the_latest_cursors_are_known() {
        let mut cursors = Cursors::default();
        for number in 1..=3 * MOST as u64 {
            assert_eq!(cursors.tell(number.to_string().into_bytes()), number);
            assert_eq!(cursors.place(number), Some(number.to_string().as_bytes()));
            let oldest = number.saturating_sub(MOST as u64);
            assert_eq!((cursors.place(oldest), cursors.place(number + 1)), (None, None));
            assert_eq!(cursors.place(oldest + 1), Some((oldest + 1).to_string().as_bytes()));
        }
        assert_eq!(cursors.place(0), None);
    }
}
