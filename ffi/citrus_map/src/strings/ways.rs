//! The ways to strings in an index, and the updates at their ends.

use super::keys::{first_key, high_key, low_key, shared_depth, FIRST_BYTES, LATER_BYTES};
use super::nodes::{Found, Layer, NewLayer, NewLeaf, OwnMark, Seen, TakenOut};
use super::shared::Shared;
use crate::{Error, Handle, Section};
use std::sync::atomic::Ordering::SeqCst;
use std::sync::Arc;

/// How far the way to a string was gone: the key to look at, the layer that has it, and so many bytes of the string that all have there.
#[derive(Clone, Copy)]
pub(super) struct Way<'s> {
    at: u64,
    within: Option<&'s Layer>,
    known: usize,
}

impl<'s> Way<'s> {
    fn to(text: &[u8]) -> Way<'s> {
        Way { at: first_key(text), within: None, known: FIRST_BYTES }
    }

    fn enter(&mut self, layer: &'s Layer, text: &[u8]) {
        *self = Way { at: layer.key_of(text), within: Some(layer), known: layer.depth() + LATER_BYTES };
    }
}

/// What became of a leaf that was to be put into the index.
pub(super) enum Placed<V> {
    /// It has the string's pair, which is a new one.
    Added,
    /// The string was there already.
    Present,
    /// It has the place of this one.
    Replaced(TakenOut<V>),
}

/// What a finished mark leaves to do.
pub(super) struct Finished<V> {
    /// Its layer, if that was taken out.
    pub(super) layer: Option<TakenOut<V>>,
    /// Whether a layer on its way may be empty now, and nobody else sees to it.
    pub(super) may_be_empty: bool,
}

/// A handle's way into the index. Each call is in a section, whose key is that of the string: so no object on the string's way is given up meanwhile,
/// and none gets the address of one that was seen. Five kinds of update are made:
/// - a leaf where there is none;
/// - a leaf by another one of the same string;
/// - a leaf, or a layer, by a layer that nobody knew and that has it and one leaf more;
/// - a leaf that is taken out, while it is the one that was seen;
/// - a layer without pairs by a mark. When all have left who may have seen it without, and it has no pair still, the mark is taken out. Whoever is
///   to add below a mark puts the layer back first.
pub(super) struct Ways<V> {
    pub(super) index: Handle,
    pub(super) shared: Arc<Shared<V>>,
}

impl<V> Ways<V> {
    /// The string's leaf, where there is one, and the way to it.
    pub(super) fn find<'s>(&self, within: &'s Section<'_>, text: &[u8]) -> Result<Option<(Found<V>, Way<'s>)>, Error> {
        let mut on = Way::to(text);
        while let Some(word) = self.index.get(on.at)? {
            // SAFETY: the index told it in this section, at a key of the string. Callers drop what was found before they leave.
            match unsafe { Seen::of(word, within) } {
                Seen::Leaf(found) => return Ok(if found.text() == text { Some((found, on)) } else { None }),
                Seen::Layer { layer, .. } if layer.has(text, on.known) => on.enter(layer, text),
                Seen::Layer { .. } => break,
            }
        }
        Ok(None)
    }

    /// Puts the leaf in where its string is absent, and in the place of the string's leaf where it replaces one.
    pub(super) fn place(&self, within: &Section<'_>, leaf: &NewLeaf<V>, replaces: bool) -> Result<Placed<V>, Error> {
        let text = leaf.text();
        let mut on = Way::to(text);
        loop {
            let word = match self.index.get(on.at)? {
                Some(word) => word,
                None if self.add(on, leaf)? => return Ok(Placed::Added),
                None => continue,
            };
            // SAFETY: as in `find`.
            let is_parted = match unsafe { Seen::of(word, within) } {
                Seen::Leaf(found) if found.text() == text => {
                    if !replaces {
                        return Ok(Placed::Present);
                    }
                    if let Some(before) = self.exchange(within, on, &found, leaf)? {
                        return Ok(Placed::Replaced(before));
                    }
                    false
                }
                Seen::Leaf(found) => self.part(on, word, found.text(), leaf)?,
                Seen::Layer { layer, is_marked: true } => {
                    self.change(on.at, word, layer.word())?;
                    false
                }
                Seen::Layer { layer, .. } if layer.has(text, on.known) => {
                    on.enter(layer, text);
                    false
                }
                Seen::Layer { layer, .. } => self.part(on, word, layer.prefix(), leaf)?,
            };
            if is_parted {
                return Ok(Placed::Added);
            }
        }
    }

    fn add(&self, on: Way<'_>, leaf: &NewLeaf<V>) -> Result<bool, Error> {
        let is_added = self.index.insert(on.at, leaf.word())?;
        if let (true, Some(layer)) = (is_added, on.within) {
            layer.gained();
        }
        Ok(is_added)
    }

    /// Whether the pair led to that, and leads to this now.
    fn change(&self, at: u64, from: u64, to: u64) -> Result<bool, Error> {
        Ok(self.index.compare_exchange(at, from, to)?.is_ok())
    }

    /// Puts the leaf in the place of one of the same string, while that is there: which this takes out.
    pub(super) fn exchange(
        &self,
        within: &Section<'_>,
        on: Way<'_>,
        before: &Found<V>,
        leaf: &NewLeaf<V>,
    ) -> Result<Option<TakenOut<V>>, Error> {
        let is_done = self.change(on.at, before.word(), leaf.word())?;
        // SAFETY: the update replaced it (`compared`), and a leaf stands in one place.
        Ok(is_done.then(|| unsafe { TakenOut::new(before.word(), within.key()) }))
    }

    /// Puts a layer in the place of what the pair leads to, a leaf or a layer, with that and the new leaf in it.
    fn part(&self, on: Way<'_>, word: u64, other: &[u8], leaf: &NewLeaf<V>) -> Result<bool, Error> {
        let depth = shared_depth(other, leaf.text(), on.known);
        let layer = NewLayer::new(self.shared.numbers.take()?, &other[..depth]);
        let (number, keys) = layer.keys([other, leaf.text()]);
        let mut filled = 0;
        let filling = keys.iter().zip([word, leaf.word()]).try_for_each(|(key, word)| {
            self.index.insert(*key, word)?;
            filled += 1;
            Ok(())
        });
        let told = filling.and_then(|()| self.replace_by_layer(on.at, word, layer.word()));
        // Where it doesn't come to its place all of it goes back. Nobody knew it.
        let goes_back =
            |told: Result<bool, Error>| told != Err(Error::Lost) && keys[..filled].iter().all(|key| self.index.remove(*key).is_ok());
        match told {
            Ok(true) => {}
            told if goes_back(told) => {
                // SAFETY: the index never had the layer, since no call was lost.
                unsafe { layer.forget() };
                self.shared.numbers.put_back(number);
            }
            _ => self.shared.is_torn.store(true, SeqCst),
        }
        told
    }

    fn replace_by_layer(&self, at: u64, word: u64, layer: u64) -> Result<bool, Error> {
        // Before others may take it out.
        self.shared.layers.fetch_add(1, SeqCst);
        let told = self.change(at, word, layer);
        if told != Ok(true) {
            self.shared.layers.fetch_sub(1, SeqCst);
        }
        told
    }

    /// Takes the leaf out, while it is in its place, and tells whether its layer may be empty then.
    pub(super) fn take(&self, within: &Section<'_>, on: Way<'_>, found: &Found<V>) -> Result<Option<(TakenOut<V>, bool)>, Error> {
        match self.index.take(on.at, found.word())? {
            // SAFETY: the update took it out (`taken`), and a leaf stands in one place.
            Ok(word) => Ok(Some((unsafe { TakenOut::new(word, within.key()) }, on.within.map_or(false, Layer::lost)))),
            Err(_) => Ok(None),
        }
    }

    /// Puts a mark in the place of the lowest layer on the way to the text, where that has no pair. Where a mark is there already, who put it there
    /// sees to it.
    fn mark_empty(&self, within: &Section<'_>, text: &[u8]) -> Result<Option<OwnMark>, Error> {
        loop {
            let (its, layer) = match self.lowest_layer(within, text)? {
                Some((its, layer, false)) if layer.may_be_empty() => (its, layer),
                _ => return Ok(None),
            };
            let mark = OwnMark::new(layer, its.at, its.within, within.key());
            if self.change(its.at, layer.word(), mark.word())? {
                return Ok(Some(mark));
            }
            // SAFETY: the index never had it.
            unsafe { mark.forget() };
        }
    }

    /// The same where a layer may be empty. Where it fails an empty layer stays.
    pub(super) fn mark_where(&self, may_be_empty: bool, within: &Section<'_>, text: &[u8]) -> Option<OwnMark> {
        if may_be_empty {
            self.mark_empty(within, text).unwrap_or(None)
        } else {
            None
        }
    }

    /// The lowest layer on the way to the text, where it stands, and whether there is a mark in its place.
    fn lowest_layer<'s>(&self, within: &'s Section<'_>, text: &[u8]) -> Result<Option<(Way<'s>, &'s Layer, bool)>, Error> {
        let (mut on, mut lowest) = (Way::to(text), None);
        while let Some(word) = self.index.get(on.at)? {
            // SAFETY: as in `find`.
            match unsafe { Seen::<V>::of(word, within) } {
                Seen::Layer { layer, is_marked } if layer.has(text, on.known) => {
                    lowest = Some((on, layer, is_marked));
                    on.enter(layer, text);
                }
                _ => break,
            }
        }
        Ok(lowest)
    }

    /// Behind a wait for all who may have seen the layer without its mark, in a section with the mark's key: takes both out, or puts the layer
    /// back. The mark isn't in the index then.
    pub(super) fn finish(&self, within: &Section<'_>, mark: &OwnMark) -> Result<Finished<V>, Error> {
        let (at, number) = (mark.place().at, mark.place().number);
        let next = self.index.first_from(low_key(number))?;
        if next.map_or(false, |(key, _)| key <= high_key(number)) {
            let is_put_back = self.change(at, mark.word(), mark.layer_word())?;
            // Whoever took the last pair out meanwhile found the mark, and left it at that.
            // SAFETY: where it was put back the mark was in its place until then.
            let may_be_empty = !is_put_back || unsafe { mark.layer(within) }.may_be_empty();
            return Ok(Finished { layer: None, may_be_empty });
        }
        if self.index.take(at, mark.word())?.is_err() {
            // It was put back, perhaps only for another layer to be put above it.
            return Ok(Finished { layer: None, may_be_empty: true });
        }
        self.shared.layers.fetch_sub(1, SeqCst);
        // SAFETY: the mark was in its place until just now. It stood there for the layer, which the index hasn't any more (`taken`).
        let (above, layer) = unsafe { (mark.above(within), TakenOut::new(mark.layer_word(), within.key())) };
        Ok(Finished { layer: Some(layer), may_be_empty: above.map_or(false, Layer::lost) })
    }
}
