//! Visits to the strings of a range, in their order or against it, a page in each section.

use super::keys::{first_key, high_key, low_key, LAST_FIRST_KEY};
use super::nodes::{Layer, Seen};
use super::range::next_above;
use super::ways::Ways;
use crate::{Error, Section};
use std::vec::IntoIter;

/// So many strings are visited in one section.
pub(super) const PAGE_ROOM: usize = 128;

/// Most layers have few pairs, so lists begin with little room.
const FEW: usize = 16;
/// The next list of a layer has so many times as much.
const MORE: usize = 4;

/// The strings from `low` on and below `below`, if that is there; from which end, and how many at most.
pub(super) struct Visit {
    pub(super) low: Vec<u8>,
    pub(super) below: Option<Vec<u8>>,
    pub(super) is_down: bool,
    pub(super) most: usize,
}

/// A layer, or all, where a visit stands: which pairs are left, and whether the ends of the range are within.
struct Level {
    has_low: bool,
    has_below: bool,
    pairs: IntoIter<(u64, u64)>,
    /// The keys that weren't listed.
    rest: Option<(u64, u64)>,
    room: usize,
}

/// A page of a visit. It doesn't call itself, since ways may be long.
struct Page<'p, V, F> {
    ways: &'p Ways<V>,
    within: &'p Section<'p>,
    visit: &'p Visit,
    act: F,
    room: usize,
    count: usize,
    last: Vec<u8>,
    levels: Vec<Level>,
}

impl Visit {
    /// Visits a page in a section of scans, and tells how many there were. The visit has the others then. Where there was no room for more there may
    /// be some.
    pub(super) fn page<V>(&mut self, ways: &Ways<V>, within: &Section<'_>, act: impl FnMut(&[u8], &V)) -> Result<usize, Error> {
        let room = PAGE_ROOM.min(self.most);
        let mut page = Page { ways, within, visit: self, act, room, count: 0, last: Vec::new(), levels: Vec::new() };
        page.go()?;
        let Page { count, last, .. } = page;
        self.most = if count < room { 0 } else { self.most - count };
        if self.is_down {
            self.below = Some(last);
        } else {
            self.low = next_above(&last);
        }
        Ok(count)
    }

    fn is_below(&self, text: &[u8]) -> bool {
        self.below.as_deref().map_or(true, |below| text < below)
    }
}

impl<V, F: FnMut(&[u8], &V)> Page<'_, V, F> {
    fn go(&mut self) -> Result<(), Error> {
        if self.room > 0 {
            self.enter(None, true, self.visit.below.is_some());
        }
        while self.count < self.room {
            let level = match self.levels.last_mut() {
                Some(level) => level,
                None => break,
            };
            if let Some((_, word)) = level.pairs.next() {
                let (has_low, has_below) = (level.has_low, level.has_below);
                self.pass(word, has_low, has_below);
            } else if let Some((low, high)) = level.rest.take() {
                let room = level.room.min(self.room);
                let page =
                    if self.visit.is_down { self.ways.index.page_down(low..=high, room) } else { self.ways.index.page(low..=high, room) }?;
                level.rest = page.next.map(|next| if self.visit.is_down { (low, next) } else { (next, high) });
                level.pairs = page.pairs.into_iter();
                level.room *= MORE;
            } else {
                self.levels.pop();
            }
        }
        Ok(())
    }

    /// Goes into a layer, or to all, where ends of the range may be within.
    fn enter(&mut self, layer: Option<&Layer>, has_low: bool, has_below: bool) {
        let key_of = |text: &[u8]| layer.map_or_else(|| first_key(text), |layer| layer.key_of(text));
        let (least, greatest) = layer.map_or((0, LAST_FIRST_KEY), |layer| (low_key(layer.number()), high_key(layer.number())));
        let low = if has_low { key_of(&self.visit.low) } else { least };
        let high = self.visit.below.as_deref().filter(|_| has_below).map_or(greatest, key_of);
        if low <= high {
            self.levels.push(Level { has_low, has_below, pairs: Vec::new().into_iter(), rest: Some((low, high)), room: FEW });
        }
    }

    /// Visits a leaf, or goes into a layer, where these are in the range.
    fn pass(&mut self, word: u64, has_low: bool, has_below: bool) {
        // SAFETY: the index told it in this section, which is one of scans. It is dropped here.
        match unsafe { Seen::<V>::of(word, self.within) } {
            Seen::Leaf(found) => {
                let text = found.text();
                if (!has_low || text >= &self.visit.low[..]) && (!has_below || self.visit.is_below(text)) {
                    (self.act)(text, found.value());
                    self.count += 1;
                    if self.count == self.room {
                        self.last = text.to_vec();
                    }
                }
            }
            Seen::Layer { layer, .. } => {
                let begins = |text: &[u8]| text.starts_with(layer.prefix());
                let (low, below) = (&self.visit.low[..], self.visit.below.as_deref().unwrap_or(&[]));
                let (low_within, below_within) = (has_low && begins(low), has_below && begins(below));
                // Where an end isn't within, all strings of the layer are on the prefix's side of it.
                let is_above = !has_low || low_within || layer.prefix() > low;
                let is_below = !has_below || below_within || layer.prefix() < below;
                if is_above && is_below {
                    self.enter(Some(layer), low_within, below_within);
                }
            }
        }
    }
}
