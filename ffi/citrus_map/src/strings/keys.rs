//! The keys that strings have in an index.
//!
//! A string's first 7 bytes, and behind them each next 4, are a slice. Where many strings have one slice a layer is made for them: the key of a
//! pair is then the number of the layer and the next slice, so the pairs of a layer stand in the order of its strings. (Mao, Kohler and Morris,
//! "Cache craftiness for fast multicore key-value storage", 2012, whose layers are trees of their own.)

use std::mem::size_of;

/// So many bytes are in a string's first slice, and in each later one. How many a slice has stands behind them.
pub(super) const FIRST_BYTES: usize = 7;
pub(super) const LATER_BYTES: usize = 4;
const LENGTH_BITS: u32 = 3;
const SLICE_BITS: u32 = 8 * LATER_BYTES as u32 + LENGTH_BITS;

/// Keys below it are first slices. The others have the number of a layer.
const LAYER_BIT: u64 = 1 << 63;
/// There are so many numbers of layers.
pub(super) const MOST_LAYERS: u64 = 1 << (u64::BITS - 1 - SLICE_BITS);

/// The greatest key of a string outside of layers.
pub(super) const LAST_FIRST_KEY: u64 = LAYER_BIT - 1;

/// The key of a section that goes through many strings. It is greater than those of strings.
pub(super) const SCANS: u64 = u64::MAX;

/// The next bytes, the first one highest, with zeros where there are fewer, and how many there are: so a string comes before those that go on
/// from it. A slice that is full is the same whether its string ends there or goes on.
fn slice_of(text: &[u8], most: usize) -> u64 {
    const WORD: usize = size_of::<u64>();
    let length = text.len().min(most);
    let mut bytes = [0; WORD];
    bytes[WORD - most..][..length].copy_from_slice(&text[..length]);
    u64::from_be_bytes(bytes) << LENGTH_BITS | length as u64
}

/// The key of a string outside of layers.
pub(super) fn first_key(text: &[u8]) -> u64 {
    slice_of(text, FIRST_BYTES)
}

/// The least key of a layer.
pub(super) fn low_key(number: u64) -> u64 {
    LAYER_BIT | number << SLICE_BITS
}

/// The greatest key of a layer.
pub(super) fn high_key(number: u64) -> u64 {
    low_key(number) | ((1 << SLICE_BITS) - 1)
}

/// The key in a layer of what is left of a string there.
pub(super) fn key_in(number: u64, rest: &[u8]) -> u64 {
    low_key(number) | slice_of(rest, LATER_BYTES)
}

/// How many bytes two different strings share in whole slices, of which they share so many bytes at least.
pub(super) fn shared_depth(one: &[u8], other: &[u8], known: usize) -> usize {
    let slice = |text: &[u8], from| slice_of(&text[from..], LATER_BYTES);
    let mut depth = known;
    while slice(one, depth) == slice(other, depth) {
        depth += LATER_BYTES;
    }
    depth
}

/// The key of a section in which a string is looked up: one for each first slice. The waiters of classes take it modulo 64, so the lowest six
/// bits are mixed with all the others; otherwise nearly all strings would be of the few classes that the slice's length makes.
pub(super) fn section_key(text: &[u8]) -> u64 {
    const CLASS_BITS: u32 = 6;
    const GOLDEN: u64 = 0x9e37_79b9_7f4a_7c15;
    let key = first_key(text);
    key ^ ((key >> CLASS_BITS).wrapping_mul(GOLDEN) >> (u64::BITS - CLASS_BITS))
}

#[cfg(test)]
mod tests {
    use super::*;
    use std::collections::HashSet;

    const TEXTS: [&[u8]; 12] =
        [b"", b"\0", b"\0\0", b"\0a", b"a", b"a\0", b"aa", b"aaaaaa", b"aaaaaa\0", b"aaaaaaa", b"b", b"\xff\xff\xff\xff\xff\xff\xff"];

    #[test]
    fn keys_ascend_as_their_strings_do() {
        for pair in TEXTS.windows(2) {
            assert!(first_key(pair[0]) < first_key(pair[1]), "{pair:?}");
        }
        let rests: [&[u8]; 8] = [b"", b"\0", b"\0\0\0\0", b"a", b"a\0", b"aaaa", b"ab", b"\xff\xff\xff\xff"];
        for pair in rests.windows(2) {
            assert!(key_in(5, pair[0]) < key_in(5, pair[1]), "{pair:?}");
        }
    }

    #[test]
    fn a_full_slice_is_that_of_all_strings_that_go_on_from_it() {
        assert_eq!(first_key(b"aaaaaaa"), first_key(b"aaaaaaab"));
        assert_eq!(key_in(5, b"aaaa"), key_in(5, b"aaaab"));
        assert_ne!(first_key(b"aaaaaa"), first_key(b"aaaaaab"));
    }

    #[test]
    fn layers_have_keys_of_their_own() {
        assert!(first_key(&[u8::MAX; 9]) <= LAST_FIRST_KEY && LAST_FIRST_KEY < low_key(0));
        for number in [0, 1, 77, MOST_LAYERS - 1] {
            assert!(low_key(number) == key_in(number, b"") && key_in(number, &[u8::MAX; 4]) < high_key(number));
        }
        assert_eq!(high_key(0) + 1, low_key(1));
        assert_eq!(high_key(MOST_LAYERS - 1), u64::MAX);
    }

    #[test]
    fn strings_share_whole_slices() {
        assert_eq!(shared_depth(b"aaaaaaa", b"aaaaaaab", 7), 7);
        assert_eq!(shared_depth(b"aaaaaaabbbb", b"aaaaaaabbbbc", 7), 11);
        assert_eq!(shared_depth(b"aaaaaaabbbbccccd", b"aaaaaaabbbbcccce", 7), 15);
        assert_eq!(shared_depth(b"aaaaaaabb", b"aaaaaaabbbb", 7), 7);
    }

    #[test]
    fn sections_have_keys_of_all_classes() {
        const CLASSES: u64 = 64;
        let keys = |count: u32| (0..count).map(|i| section_key(i.to_string().as_bytes()));
        assert_eq!(keys(1_000).map(|key| key % CLASSES).collect::<HashSet<_>>().len(), CLASSES as usize);
        assert!(keys(1_000).all(|key| key < SCANS));
        // What goes on from a full slice is of its section.
        assert_eq!(section_key(b"aaaaaaa"), section_key(b"aaaaaaabcd"));
        assert_eq!(TEXTS.iter().map(|text| section_key(text)).collect::<HashSet<_>>().len(), TEXTS.len());
    }
}
