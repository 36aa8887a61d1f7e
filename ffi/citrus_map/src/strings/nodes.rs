//! What the pairs of a string map lead to: leaves, layers and marks, and who has them. All raw pointers of the crate to these are here.
//!
//! What a pair leads to is kept while it is read by a section: whoever takes an object out of the index waits then, and gives it up when each
//! section is left that had the key of its strings, or [`SCANS`](super::keys::SCANS), and was entered before that wait. A section that was
//! entered later finds it on no way, since no pair leads to it any more. The clauses are `entered`, `begun` and `polled` of `citrus_c` for the
//! sections, which are those of another index; `told`, `compared` and `taken` for the pairs. That no way leads there later is an argument on
//! paper: each update is one of the five kinds that [`Ways`](super::ways::Ways) makes.

use super::keys::key_in;
use crate::Section;
use std::alloc::{alloc, dealloc, handle_alloc_error, Layout};
use std::marker::PhantomData;
use std::mem::{align_of, forget, size_of};
use std::ptr::{addr_of, copy_nonoverlapping, NonNull};
use std::slice;
use std::sync::atomic::{AtomicI64, Ordering::SeqCst};
use std::sync::Arc;

/// A pair's word is the address of an object, with its kind in the lowest two bits, which the address has free.
const KINDS: u64 = 3;
const LEAF: u64 = 0;
const LAYER: u64 = 1;
const MARK: u64 = 2;

fn word_of<T>(object: NonNull<T>, kind: u64) -> u64 {
    object.as_ptr() as usize as u64 | kind
}

/// # Safety
/// The word is what an index has, or had, for an object of this type.
unsafe fn object_of<T>(word: u64) -> NonNull<T> {
    // SAFETY: so says the caller, and an object's address isn't 0.
    unsafe { NonNull::new_unchecked((word & !KINDS) as usize as *mut T) }
}

/// The first part of a leaf, behind which its string's bytes stand.
struct Head<V> {
    value: V,
    length: usize,
}

/// Where a leaf is: a string and its value in one block.
struct Leaf<V>(NonNull<Head<V>>);

impl<V> Clone for Leaf<V> {
    fn clone(&self) -> Leaf<V> {
        *self
    }
}

impl<V> Copy for Leaf<V> {}

impl<V> Leaf<V> {
    /// The block of a leaf whose string has so many bytes.
    fn block(length: usize) -> Layout {
        Layout::from_size_align(size_of::<Head<V>>() + length, align_of::<Head<V>>())
            .expect("a string that is there has room behind a head")
    }

    fn make(text: &[u8], value: V) -> Leaf<V> {
        let block = Leaf::<V>::block(text.len());
        // SAFETY: a head has a length, so the block isn't empty.
        let head = match NonNull::new(unsafe { alloc(block) }.cast::<Head<V>>()) {
            Some(head) => head,
            None => handle_alloc_error(block),
        };
        // SAFETY: the block is new, and has room for a head and behind that for the bytes.
        unsafe {
            head.as_ptr().write(Head { value, length: text.len() });
            copy_nonoverlapping(text.as_ptr(), head.as_ptr().add(1).cast(), text.len());
        }
        Leaf(head)
    }

    /// # Safety
    /// The leaf is there for so long, and nobody writes to it.
    unsafe fn value<'a>(self) -> &'a V {
        // SAFETY: so says the caller.
        unsafe { &*addr_of!((*self.0.as_ptr()).value) }
    }

    /// # Safety
    /// As of [`value`](Leaf::value).
    unsafe fn text<'a>(self) -> &'a [u8] {
        let head = self.0.as_ptr();
        // SAFETY: so says the caller, and so many bytes stand behind the head.
        unsafe { slice::from_raw_parts(head.add(1).cast(), addr_of!((*head).length).read()) }
    }

    /// # Safety
    /// The caller alone has it, and doesn't afterwards.
    unsafe fn into_value(self) -> V {
        let head = self.0.as_ptr();
        // SAFETY: the value is moved out, and then the block is freed as it was made. So says the caller that nobody has it.
        unsafe {
            let Head { value, length } = head.read();
            dealloc(head.cast(), Leaf::<V>::block(length));
            value
        }
    }
}

/// A leaf that is to be put into the index. Where it is dropped it is leaked.
pub(super) struct NewLeaf<V>(Leaf<V>);

impl<V> NewLeaf<V> {
    pub(super) fn new(text: &[u8], value: V) -> NewLeaf<V> {
        NewLeaf(Leaf::make(text, value))
    }

    /// What the index is to have for it.
    pub(super) fn word(&self) -> u64 {
        word_of(self.0 .0, LEAF)
    }

    pub(super) fn text(&self) -> &[u8] {
        // SAFETY: it is there, also where the index has it by now and another call took it out again: that waits for the section of this one.
        unsafe { self.0.text() }
    }

    /// # Safety
    /// No pair that anybody may find ever led to it.
    pub(super) unsafe fn into_value(self) -> V {
        // SAFETY: so nobody else knows of it.
        unsafe { self.0.into_value() }
    }
}

/// A leaf that was found in a section, in which its reader is still.
pub(super) struct Found<V>(Leaf<V>);

impl<V> Found<V> {
    /// # Safety
    /// A pair of the index led to this leaf at a moment of a section with the key of its string, or of scans; and that section isn't left before
    /// this is dropped.
    pub(super) unsafe fn new(word: u64) -> Found<V> {
        // SAFETY: so says the caller.
        Found(Leaf(unsafe { object_of(word) }))
    }

    pub(super) fn word(&self) -> u64 {
        word_of(self.0 .0, LEAF)
    }

    pub(super) fn value(&self) -> &V {
        // SAFETY: it is kept by its section.
        unsafe { self.0.value() }
    }

    pub(super) fn text(&self) -> &[u8] {
        // SAFETY: as of the value.
        unsafe { self.0.text() }
    }
}

/// Strings that begin with one prefix, which has the bytes of whole slices. Its number and its prefix stay as long as it is there: so whoever
/// read the pair that leads to it may go on in it, whatever was put above it since.
pub(super) struct Layer {
    number: u64,
    prefix: Arc<[u8]>,
    /// How many pairs it has. Updates that are under way count theirs a little later, so it is a hint.
    pairs: AtomicI64,
}

/// So many pairs a new layer has.
const NEW_PAIRS: i64 = 2;

impl Layer {
    pub(super) fn number(&self) -> u64 {
        self.number
    }

    pub(super) fn prefix(&self) -> &[u8] {
        &self.prefix
    }

    pub(super) fn depth(&self) -> usize {
        self.prefix.len()
    }

    /// The key that a string which begins with the prefix has in it.
    pub(super) fn key_of(&self, text: &[u8]) -> u64 {
        key_in(self.number, &text[self.depth()..])
    }

    /// Whether a string begins with the prefix, where it has so many bytes of it.
    pub(super) fn has(&self, text: &[u8], known: usize) -> bool {
        text.len() >= self.depth() && text[known..self.depth()] == self.prefix[known..]
    }

    pub(super) fn word(&self) -> u64 {
        word_of(NonNull::from(self), LAYER)
    }

    /// It has one pair more.
    pub(super) fn gained(&self) {
        self.pairs.fetch_add(1, SeqCst);
    }

    /// It has one pair less. Whether it may have none now.
    pub(super) fn lost(&self) -> bool {
        self.pairs.fetch_sub(1, SeqCst) <= 1
    }

    pub(super) fn may_be_empty(&self) -> bool {
        self.pairs.load(SeqCst) <= 0
    }
}

/// A layer that is to be put into the index. Where it is dropped it is leaked.
pub(super) struct NewLayer(NonNull<Layer>);

impl NewLayer {
    pub(super) fn new(number: u64, prefix: &[u8]) -> NewLayer {
        let layer = Layer { number, prefix: prefix.into(), pairs: AtomicI64::new(NEW_PAIRS) };
        NewLayer(NonNull::from(Box::leak(Box::new(layer))))
    }

    /// What the index is to have for it.
    pub(super) fn word(&self) -> u64 {
        word_of(self.0, LAYER)
    }

    /// The number, and the keys that these strings have in it.
    pub(super) fn keys<const N: usize>(&self, texts: [&[u8]; N]) -> (u64, [u64; N]) {
        // SAFETY: as of a new leaf's text.
        let layer = unsafe { self.0.as_ref() };
        (layer.number, texts.map(|text| layer.key_of(text)))
    }

    /// # Safety
    /// The index never had it.
    pub(super) unsafe fn forget(self) {
        // SAFETY: it was made of a box, and nobody else knows of it.
        drop(unsafe { Box::from_raw(self.0.as_ptr()) });
    }
}

/// What stands in the place of a layer that has become empty, until it is taken out or put back. Readers go on by it, and nothing is added below
/// it. It is an object of its own, so that no second one is taken for it.
struct Mark {
    of: NonNull<Layer>,
    /// What whoever put it there knows of its place, for when the layer may be gone.
    place: Place,
}

/// Where a mark stands.
pub(super) struct Place {
    /// The key of its pair.
    pub(super) at: u64,
    /// The layer that has the pair, if one does.
    above: Option<NonNull<Layer>>,
    /// The number and the prefix of the layer for which it stands.
    pub(super) number: u64,
    pub(super) prefix: Arc<[u8]>,
    /// The key of the sections in which it may be found.
    pub(super) section: u64,
}

/// A mark of a handle that put it into the index, or is to do so, and that alone gives it up. Where it is dropped it is leaked.
pub(super) struct OwnMark(NonNull<Mark>);

// SAFETY: its place is read by whoever has it, and what its pointers lead to in sections alone, by whichever thread.
unsafe impl Send for OwnMark {}

impl OwnMark {
    /// A mark for a layer whose pair has this key, in the layer above it if that has the pair.
    pub(super) fn new(of: &Layer, at: u64, above: Option<&Layer>, section: u64) -> OwnMark {
        let place = Place { at, above: above.map(NonNull::from), number: of.number, prefix: Arc::clone(&of.prefix), section };
        OwnMark(NonNull::from(Box::leak(Box::new(Mark { of: NonNull::from(of), place }))))
    }

    /// What the index has for it, where it is in its place.
    pub(super) fn word(&self) -> u64 {
        word_of(self.0, MARK)
    }

    pub(super) fn place(&self) -> &Place {
        // SAFETY: nobody writes to it, and this alone gives it up.
        unsafe { &self.0.as_ref().place }
    }

    /// What the index has for the layer, where that is in its place.
    pub(super) fn layer_word(&self) -> u64 {
        // SAFETY: as of the place.
        word_of(unsafe { self.0.as_ref().of }, LAYER)
    }

    /// The layer for which it stands.
    ///
    /// # Safety
    /// A pair led to the mark at a moment of this section, which has its key.
    pub(super) unsafe fn layer<'s>(&self, _: &'s Section<'_>) -> &'s Layer {
        // SAFETY: so the layer was in its place at that moment, by the mark, and is kept by the section.
        unsafe { self.0.as_ref().of.as_ref() }
    }

    /// The layer that has its pair, if one does.
    ///
    /// # Safety
    /// As of [`layer`](OwnMark::layer).
    pub(super) unsafe fn above<'s>(&self, _: &'s Section<'_>) -> Option<&'s Layer> {
        // SAFETY: so that layer had a pair at that moment, and was in its place, since nobody takes one out that has a pair. The section keeps it.
        unsafe { self.0.as_ref().place.above.map(|above| above.as_ref()) }
    }

    /// It isn't in the index any more, and readers may still stand on it.
    pub(super) fn into_taken_out<V>(self) -> TakenOut<V> {
        let section = self.place().section;
        // SAFETY: this was its one owner.
        unsafe { TakenOut::new(self.word(), section) }
    }

    /// # Safety
    /// No reader is left, or nobody ever found it.
    pub(super) unsafe fn forget(self) {
        // SAFETY: it was made of a box, and is owned by this alone.
        drop(unsafe { Box::from_raw(self.0.as_ptr()) });
    }
}

/// What a pair leads to, as it is seen in a section.
pub(super) enum Seen<'s, V> {
    /// A string and its value.
    Leaf(Found<V>),
    /// A layer, in whose place there may be a mark.
    Layer { layer: &'s Layer, is_marked: bool },
}

impl<'s, V> Seen<'s, V> {
    /// # Safety
    /// The index told this word in this section, at a key that a string of the section has there, or any key in a section of scans. A found leaf is
    /// dropped before the section is left.
    pub(super) unsafe fn of(word: u64, _: &'s Section<'_>) -> Seen<'s, V> {
        // SAFETY: the section keeps what the pair led to, and by a mark the layer for which it stood then. So says the caller.
        unsafe {
            match word & KINDS {
                LEAF => Seen::Leaf(Found::new(word)),
                LAYER => Seen::Layer { layer: object_of::<Layer>(word).as_ref(), is_marked: false },
                _ => Seen::Layer { layer: object_of::<Mark>(word).as_ref().of.as_ref(), is_marked: true },
            }
        }
    }
}

/// The one owner of what was taken out of the index. Readers may still stand on it. Where it is dropped it is leaked.
pub(super) struct TakenOut<V> {
    word: u64,
    /// The key of the sections in which it may have been found.
    pub(super) section: u64,
    values: PhantomData<V>,
}

impl<V> TakenOut<V> {
    /// # Safety
    /// An update of the index took this word out or replaced it by one that doesn't lead to it, or it was never put in again after that; or no
    /// handle is left, and the index has it. Of this one update, or once at the end, this is made.
    pub(super) unsafe fn new(word: u64, section: u64) -> TakenOut<V> {
        TakenOut { word, section, values: PhantomData }
    }

    /// # Safety
    /// No reader is left: a wait for its section's key and for scans that was begun after it was taken out is over; or no handle is left.
    pub(super) unsafe fn into_given_up(self) -> GivenUp<V> {
        // SAFETY: it is owned by this alone, and was made as such an object.
        unsafe {
            match self.word & KINDS {
                LEAF => GivenUp::Leaf(OwnLeaf(Leaf(object_of(self.word)))),
                LAYER => GivenUp::Layer(Box::from_raw(object_of(self.word).as_ptr())),
                _ => {
                    OwnMark(object_of(self.word)).forget();
                    GivenUp::Mark
                }
            }
        }
    }
}

/// What nobody reads any more.
pub(super) enum GivenUp<V> {
    Leaf(OwnLeaf<V>),
    /// Its number may be given to another one.
    Layer(Box<Layer>),
    Mark,
}

/// A leaf that nobody else has.
pub(super) struct OwnLeaf<V>(Leaf<V>);

impl<V> OwnLeaf<V> {
    pub(super) fn into_value(self) -> V {
        let leaf = self.0;
        forget(self);
        // SAFETY: it was owned by this alone.
        unsafe { leaf.into_value() }
    }
}

impl<V> Drop for OwnLeaf<V> {
    fn drop(&mut self) {
        // SAFETY: it is owned by this alone, and not read afterwards.
        drop(unsafe { self.0.into_value() });
    }
}

/// What a pair leads to where no handle is left.
///
/// # Safety
/// The index has this word, no handle is left, and it is asked of each pair once.
pub(super) unsafe fn left_over<V>(word: u64) -> TakenOut<V> {
    // SAFETY: a mark's owner, whose it is, gives that up; the layer for which it stands is in its place by the mark alone. So says the caller.
    unsafe {
        match word & KINDS {
            MARK => TakenOut::new(word_of(object_of::<Mark>(word).as_ref().of, LAYER), 0),
            _ => TakenOut::new(word, 0),
        }
    }
}

const _: () =
    assert!(align_of::<Head<u8>>() > KINDS as usize && align_of::<Layer>() > KINDS as usize && align_of::<Mark>() > KINDS as usize);

#[cfg(test)]
mod tests {
    use super::*;
    use std::sync::atomic::AtomicUsize;

    struct Counted<'c>(&'c AtomicUsize);

    impl Drop for Counted<'_> {
        fn drop(&mut self) {
            self.0.fetch_add(1, SeqCst);
        }
    }

    fn found<V>(leaf: &NewLeaf<V>) -> Found<V> {
        // SAFETY: the tests give it up later.
        unsafe { Found::new(leaf.word()) }
    }

    #[test]
    fn a_leaf_has_its_string_and_its_value() {
        for text in [&b""[..], b"a", b"\0\xff", &[7; 4_096]] {
            let leaf = NewLeaf::new(text, text.len());
            assert_eq!((leaf.text(), found(&leaf).text(), *found(&leaf).value()), (text, text, text.len()));
            // SAFETY: nobody else knows of it.
            assert_eq!(unsafe { leaf.into_value() }, text.len());
        }
    }

    #[test]
    fn values_of_all_sizes_have_room() {
        #[repr(align(64))]
        #[derive(Clone, Copy, PartialEq, Debug)]
        struct Wide([u8; 65]);
        let (none, wide) = (NewLeaf::new(b"none", ()), NewLeaf::new(b"wide", Wide([3; 65])));
        assert_eq!((none.text(), wide.text(), *found(&wide).value()), (&b"none"[..], &b"wide"[..], Wide([3; 65])));
        assert_eq!(found(&wide).value() as *const Wide as usize % align_of::<Wide>(), 0);
        // SAFETY: nobody else knows of them.
        unsafe { (none.into_value(), wide.into_value()) };
    }

    #[test]
    fn a_leaf_that_is_given_up_drops_its_value_once() {
        let dropped = AtomicUsize::new(0);
        let leaf = NewLeaf::new(b"text", Counted(&dropped));
        // SAFETY: it is as if it had been taken out.
        match unsafe { TakenOut::new(leaf.word(), 0).into_given_up() } {
            GivenUp::<Counted<'_>>::Leaf(own) => drop(own),
            _ => panic!("it is a leaf"),
        }
        assert_eq!(dropped.load(SeqCst), 1);
    }

    #[test]
    fn a_layer_has_strings_with_its_prefix() {
        let new = NewLayer::new(5, b"aaaaaaabbbb");
        assert_eq!(new.keys([b"aaaaaaabbbb", b"aaaaaaabbbbc"]), (5, [key_in(5, b""), key_in(5, b"c")]));
        // SAFETY: nobody else knows of it.
        let layer = unsafe { Box::from_raw(new.0.as_ptr()) };
        assert!(layer.has(b"aaaaaaabbbb", 7) && layer.has(b"aaaaaaabbbbc", 7));
        assert!(!layer.has(b"aaaaaaabbb", 7) && !layer.has(b"aaaaaaabbbd", 7));
        assert!(!layer.may_be_empty() && !layer.lost() && layer.lost() && layer.may_be_empty());
        layer.gained();
        assert!(!layer.may_be_empty());
    }
}
