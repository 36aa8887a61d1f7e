//! Ranges of pairs, from both ends.

use crate::handle::ends;
use crate::library::*;
use crate::lists::{decoded, RawList, RawPage};
use crate::{Error, Key, KeyedHandle, KeyedIndex};
use std::fmt;
use std::iter::FusedIterator;
use std::ops::RangeBounds;
use std::vec::IntoIter;

/// So many pairs a page of a range has room for.
pub(crate) const PAGE_ROOM: usize = 1_000;

/// The pairs of a key range, page by page from both ends, until these meet: a key that was within a page of one end is in none of the other.
pub(crate) struct Pages {
    /// The rest of the page at the lower end, keys ascending.
    lower: IntoIter<RawPair>,
    /// The rest of the page at the upper end, keys descending.
    upper: IntoIter<RawPair>,
    /// The least and the greatest key between them, where these weren't listed.
    between: Option<(u64, u64)>,
}

impl Pages {
    /// Of the keys with these ends, as [`ends`] tells them.
    pub(crate) fn new(between: Option<(u64, u64)>) -> Pages {
        Pages { lower: Vec::new().into_iter(), upper: Vec::new().into_iter(), between }
    }

    /// The first pair that is left. Pages are listed by `list`, keys ascending. Behind an error nothing is left.
    pub(crate) fn next(&mut self, list: impl Fn(u64, u64) -> Result<RawPage, Error>) -> Option<Result<RawPair, Error>> {
        loop {
            if let Some(pair) = self.lower.next() {
                return Some(Ok(pair));
            }
            let (low, high) = match self.between.take() {
                Some(ends) => ends,
                None => return self.upper.next_back().map(Ok),
            };
            match list(low, high) {
                Ok(RawPage { pairs, next }) => (self.lower, self.between) = (pairs.into_iter(), next.map(|next| (next, high))),
                Err(error) => return Some(Err(self.ended_by(error))),
            }
        }
    }

    /// The last pair that is left. Pages are listed by `list`, keys descending.
    pub(crate) fn next_back(&mut self, list: impl Fn(u64, u64) -> Result<RawPage, Error>) -> Option<Result<RawPair, Error>> {
        loop {
            if let Some(pair) = self.upper.next() {
                return Some(Ok(pair));
            }
            let (low, high) = match self.between.take() {
                Some(ends) => ends,
                None => return self.lower.next_back().map(Ok),
            };
            match list(low, high) {
                Ok(RawPage { pairs, next }) => (self.upper, self.between) = (pairs.into_iter(), next.map(|next| (low, next))),
                Err(error) => return Some(Err(self.ended_by(error))),
            }
        }
    }

    fn ended_by(&mut self, error: Error) -> Error {
        *self = Pages::new(None);
        error
    }
}

/// The pairs of a key range, page by page: see [`KeyedHandle::range`].
#[must_use = "it lists nothing before it is asked for a pair"]
pub struct Range<'h, K = u64> {
    by: Lister<'h, K>,
    pages: Pages,
}

/// Who lists the pages.
enum Lister<'h, K> {
    Handle(&'h KeyedHandle<K>),
    /// By a handle that it lends for the page.
    Index(&'h KeyedIndex<K>),
}

impl<K: Key> Lister<'_, K> {
    fn list(&self, list: RawList, low: u64, high: u64) -> Result<RawPage, Error> {
        match self {
            Lister::Handle(handle) => handle.listed(list, low, high, PAGE_ROOM),
            Lister::Index(index) => index.lend()?.listed(list, low, high, PAGE_ROOM),
        }
    }
}

impl<K: Key> Iterator for Range<'_, K> {
    type Item = Result<(K, u64), Error>;

    fn next(&mut self) -> Option<Self::Item> {
        let pair = self.pages.next(|low, high| self.by.list(citrus_list_once, low, high))?;
        Some(pair.map(decoded))
    }
}

impl<K: Key> DoubleEndedIterator for Range<'_, K> {
    fn next_back(&mut self) -> Option<Self::Item> {
        let pair = self.pages.next_back(|low, high| self.by.list(citrus_list_down_once, low, high))?;
        Some(pair.map(decoded))
    }
}

impl<K: Key> FusedIterator for Range<'_, K> {}

impl<K> fmt::Debug for Range<'_, K> {
    fn fmt(&self, text: &mut fmt::Formatter<'_>) -> fmt::Result {
        text.debug_struct("Range").finish_non_exhaustive()
    }
}

impl<'h, K: Key> IntoIterator for &'h KeyedHandle<K> {
    type Item = Result<(K, u64), Error>;
    type IntoIter = Range<'h, K>;

    fn into_iter(self) -> Range<'h, K> {
        self.iter()
    }
}

impl<'i, K: Key> IntoIterator for &'i KeyedIndex<K> {
    type Item = Result<(K, u64), Error>;
    type IntoIter = Range<'i, K>;

    fn into_iter(self) -> Range<'i, K> {
        self.iter()
    }
}

/// Pairs one by one.
impl<K: Key> KeyedHandle<K> {
    /// The pairs with keys in the range, one by one, from both ends: keys ascend by `next`, and descend by `next_back`, as in `rev()`, until the
    /// two meet. It lists up to 1,000 pairs at an end, as they were at one moment, and goes on behind them when they are through. So what other
    /// threads change within a page isn't seen, and what they change between the pages is. No key comes twice or out of order, what is there
    /// all the time comes, and the whole is of no one moment.
    ///
    /// The handle may make other calls meanwhile. An error is the last item, at either end.
    ///
    /// [`list`](KeyedHandle::list) tells the pairs of one moment.
    ///
    /// ```
    /// let index = citrus_map::Index::new(100, 1)?;
    /// let handle = index.handle()?;
    /// for key in 0..10 {
    ///     handle.insert(key, key * key)?;
    /// }
    /// let mut sum = 0;
    /// for pair in handle.range(3..) {
    ///     let (_, value) = pair?;
    ///     sum += value;
    /// }
    /// assert_eq!(sum, 280);
    /// let last: Vec<_> = handle.range(..8).rev().take(2).collect::<Result<_, _>>()?;
    /// assert_eq!(last, [(7, 49), (6, 36)]);
    /// # Ok::<(), citrus_map::Error>(())
    /// ```
    pub fn range(&self, keys: impl RangeBounds<K>) -> Range<'_, K> {
        Range { by: Lister::Handle(self), pages: Pages::new(ends(&keys)) }
    }

    /// All pairs, as [`range`](KeyedHandle::range).
    pub fn iter(&self) -> Range<'_, K> {
        self.range(..)
    }
}

/// Pairs one by one, without a handle in hand.
impl<K: Key> KeyedIndex<K> {
    /// The pairs with keys in the range, one by one, from both ends: as [`KeyedHandle::range`]. Each page is listed by a handle that is
    /// [lent](KeyedIndex::lend) for it, and none is out between: so what is done with a pair may call by the index. Where none is to be had
    /// [`Error::NoHandle`] is the last item.
    ///
    /// ```
    /// let index = citrus_map::Index::new(100, 1)?;
    /// for key in 0..10 {
    ///     index.insert(key, key * key)?;
    /// }
    /// for pair in index.range(..5).rev() {
    ///     let (key, _) = pair?;
    ///     index.remove(key)?;
    /// }
    /// assert_eq!(index.first()?, Some((5, 25)));
    /// # Ok::<(), citrus_map::Error>(())
    /// ```
    pub fn range(&self, keys: impl RangeBounds<K>) -> Range<'_, K> {
        Range { by: Lister::Index(self), pages: Pages::new(ends(&keys)) }
    }

    /// All pairs, as [`range`](KeyedIndex::range).
    pub fn iter(&self) -> Range<'_, K> {
        self.range(..)
    }
}
