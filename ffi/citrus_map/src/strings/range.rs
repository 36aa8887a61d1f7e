//! Ranges of strings.

use std::ops::{Bound, Range, RangeBounds, RangeFrom, RangeFull, RangeInclusive, RangeTo, RangeToInclusive};

/// A range of strings, in the order of their bytes: `..`, `"a".."b"`, `"a"..`, `..="b"` and std's other ranges, of whatever gives bytes; and those
/// that begin alike, as a [`Prefix`].
///
/// ```
/// use citrus_map::{Prefix, StringRange};
///
/// assert_eq!(("a".."b").ends(), (b"a".to_vec(), Some(b"b".to_vec())));
/// assert_eq!(Prefix("user:").ends(), (b"user:".to_vec(), Some(b"user;".to_vec())));
/// ```
pub trait StringRange {
    /// The least string that may be in it, and the least one above it, where there is one.
    fn ends(&self) -> (Vec<u8>, Option<Vec<u8>>);
}

/// The strings that begin with this one.
#[derive(Clone, Copy, Debug, PartialEq, Eq, Hash)]
pub struct Prefix<T>(pub T);

/// The least string above this one: nothing is between.
pub(super) fn next_above(text: &[u8]) -> Vec<u8> {
    [text, &[0]].concat()
}

fn ends_of<T: AsRef<[u8]>>(keys: &impl RangeBounds<T>) -> (Vec<u8>, Option<Vec<u8>>) {
    let low = match keys.start_bound() {
        Bound::Included(low) => low.as_ref().to_vec(),
        Bound::Excluded(low) => next_above(low.as_ref()),
        Bound::Unbounded => Vec::new(),
    };
    let below = match keys.end_bound() {
        Bound::Included(high) => Some(next_above(high.as_ref())),
        Bound::Excluded(below) => Some(below.as_ref().to_vec()),
        Bound::Unbounded => None,
    };
    (low, below)
}

macro_rules! ranges_of_std {
    ($($range:ty),*) => {
        $(impl<T: AsRef<[u8]>> StringRange for $range {
            fn ends(&self) -> (Vec<u8>, Option<Vec<u8>>) {
                ends_of::<T>(self)
            }
        })*
    };
}

ranges_of_std!(Range<T>, RangeFrom<T>, RangeTo<T>, RangeInclusive<T>, RangeToInclusive<T>, (Bound<T>, Bound<T>));

impl StringRange for RangeFull {
    fn ends(&self) -> (Vec<u8>, Option<Vec<u8>>) {
        (Vec::new(), None)
    }
}

impl<T: AsRef<[u8]>> StringRange for Prefix<T> {
    fn ends(&self) -> (Vec<u8>, Option<Vec<u8>>) {
        let prefix = self.0.as_ref();
        // Behind all that go on from it is the next greater one of no greater length.
        let below = prefix.iter().rposition(|byte| *byte < u8::MAX).map(|last| {
            let mut below = prefix[..=last].to_vec();
            below[last] += 1;
            below
        });
        (prefix.to_vec(), below)
    }
}

#[cfg(test)]
mod tests {
    use super::*;

    fn ends(low: &[u8], below: Option<&[u8]>) -> (Vec<u8>, Option<Vec<u8>>) {
        (low.to_vec(), below.map(<[u8]>::to_vec))
    }

    #[test]
    fn ends_are_those_of_a_range() {
        assert_eq!((..).ends(), ends(b"", None));
        assert_eq!(("a".."c").ends(), ends(b"a", Some(b"c")));
        assert_eq!(("a"..="c").ends(), ends(b"a", Some(b"c\0")));
        assert_eq!((String::from("a")..).ends(), ends(b"a", None));
        assert_eq!((..b"c").ends(), ends(b"", Some(b"c")));
        assert_eq!((..=&b"c"[..]).ends(), ends(b"", Some(b"c\0")));
        assert_eq!((Bound::Excluded("a"), Bound::Included("c")).ends(), ends(b"a\0", Some(b"c\0")));
    }

    #[test]
    fn a_prefix_ends_below_what_does_not_begin_with_it() {
        assert_eq!(Prefix("ab").ends(), ends(b"ab", Some(b"ac")));
        assert_eq!(Prefix(b"a\xff\xff").ends(), ends(b"a\xff\xff", Some(b"b")));
        assert_eq!(Prefix("").ends(), ends(b"", None));
        assert_eq!(Prefix([u8::MAX; 3]).ends(), ends(&[u8::MAX; 3], None));
    }
}
