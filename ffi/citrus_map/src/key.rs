//! Which types may be keys.

use std::borrow::Cow;
use std::marker::PhantomData;
use std::net::Ipv4Addr;

/// A type whose values stand for words of at most 64 bits, in the same order.
///
/// Integers, `bool`, `char`, `f32` and `f64` are keys, and [`Ipv4Addr`]; so are tuples and arrays of keys that have 64 bits together at most,
/// the first part highest: `(u32, u32)`, `[u8; 8]`. A type of yours becomes one in five lines:
///
/// ```
/// use citrus_map::{Key, KeyedIndex};
///
/// #[derive(Clone, Copy, Debug, PartialEq)]
/// struct UserId(u32);
///
/// impl Key for UserId {
///     const BITS: u32 = u32::BITS;
///     fn encode(self) -> u64 { self.0.encode() }
///     fn decode(word: u64) -> UserId { UserId(Key::decode(word)) }
/// }
///
/// let index = KeyedIndex::new(100, 1)?;
/// let handle = index.handle()?;
/// handle.insert(UserId(7), 70)?;
/// assert_eq!(handle.list(UserId(5)..)?, [(UserId(7), 70)]);
/// # Ok::<(), citrus_map::Error>(())
/// ```
///
/// For two keys `a < b` exactly where `a.encode() < b.encode()`, each word is below 2^[`BITS`](Key::BITS), and `decode(a.encode())` is `a`. A
/// type that doesn't keep this has its pairs mixed up, and nothing worse: each call makes a key a word once, and goes by that.
///
/// Of floating numbers -0 is the key 0, since they are equal. All that are no numbers are one key, above infinity.
///
/// What has more than 64 bits is no key:
///
/// ```compile_fail,E0080
/// citrus_map::KeyedIndex::<(u64, bool)>::new(100, 1);
/// ```
///
/// Nor is what has no word:
///
/// ```compile_fail,E0599
/// citrus_map::KeyedIndex::<&str>::new(100, 1);
/// ```
pub trait Key: Copy {
    /// So many bits a word has at most, 1 to 64.
    const BITS: u32;

    /// The word of a key.
    fn encode(self) -> u64;

    /// The key of a word that [`encode`](Key::encode) made.
    fn decode(word: u64) -> Self;

    /// The words of several keys.
    #[doc(hidden)]
    fn encode_all(keys: &[Self]) -> Cow<'_, [u64]> {
        keys.iter().map(|key| key.encode()).collect()
    }
}

/// The greatest word of so many bits.
const fn greatest(bits: u32) -> u64 {
    assert!(1 <= bits && bits <= 64, "a key has 1 to 64 bits");
    u64::MAX >> (64 - bits)
}

/// The words of a type of keys.
pub(crate) struct Words<K>(PhantomData<K>);

impl<K: Key> Words<K> {
    /// The greatest one. Of a type whose words have more bits than fit, or none, this doesn't compile.
    pub(crate) const GREATEST: u64 = greatest(K::BITS);
}

/// The bits of parts together.
const fn together(bits: u64) -> u32 {
    assert!(bits <= 64, "the parts of a key have 64 bits together at most");
    bits as u32
}

/// A word with one more part behind it.
fn beside<K: Key>(word: u64, part: K) -> u64 {
    // A part of 64 bits is alone.
    word.checked_shl(K::BITS).unwrap_or(0) | part.encode()
}

/// The next part of a word, with so many bits from there on, and then so many behind it.
fn part<K: Key>(word: u64, bits: &mut u32) -> K {
    *bits -= K::BITS;
    K::decode(word >> *bits & Words::<K>::GREATEST)
}

macro_rules! unsigned {
    ($($type:ty)*) => {$(
        impl Key for $type {
            const BITS: u32 = <$type>::BITS;

            fn encode(self) -> u64 {
                self as u64
            }

            fn decode(word: u64) -> $type {
                word as $type
            }
        }
    )*};
}

/// Negative numbers come first.
macro_rules! signed {
    ($($type:ty as $word:ty),*) => {$(
        impl Key for $type {
            const BITS: u32 = <$type>::BITS;

            fn encode(self) -> u64 {
                (self as $word ^ <$type>::MIN as $word) as u64
            }

            fn decode(word: u64) -> $type {
                (word as $word ^ <$type>::MIN as $word) as $type
            }
        }
    )*};
}

/// IEEE 754: the bits of numbers that aren't negative ascend with them, and those of the negative ones descend.
macro_rules! floating {
    ($($type:ty as $word:ty),*) => {$(
        impl Key for $type {
            const BITS: u32 = <$word>::BITS;

            fn encode(self) -> u64 {
                const SIGN: $word = 1 << (<$word>::BITS - 1);
                // 0 in place of -0.
                let bits = (self + 0.0).to_bits();
                u64::from(if self.is_nan() {
                    (<$type>::INFINITY.to_bits() | SIGN) + 1
                } else if bits & SIGN == 0 {
                    bits | SIGN
                } else {
                    !bits
                })
            }

            fn decode(word: u64) -> $type {
                const SIGN: $word = 1 << (<$word>::BITS - 1);
                let word = word as $word;
                let bits = if word & SIGN == 0 { !word } else { word ^ SIGN };
                let number = <$type>::from_bits(bits);
                if number.is_nan() { <$type>::NAN } else { number }
            }
        }
    )*};
}

macro_rules! tuples {
    ($($($name:ident)*;)*) => {$(
        impl<$($name: Key),*> Key for ($($name,)*) {
            const BITS: u32 = together(0 $(+ $name::BITS as u64)*);

            #[allow(non_snake_case)]
            fn encode(self) -> u64 {
                let _ = Self::BITS;
                let ($($name,)*) = self;
                let word = 0;
                $(let word = beside(word, $name);)*
                word
            }

            fn decode(word: u64) -> Self {
                let mut behind = Self::BITS;
                ($(part::<$name>(word, &mut behind),)*)
            }
        }
    )*};
}

unsigned!(u8 u16 u32 usize);
signed!(i8 as u8, i16 as u16, i32 as u32, i64 as u64, isize as usize);
floating!(f32 as u32, f64 as u64);
tuples! {
    A;
    A B;
    A B C;
    A B C D;
    A B C D E;
    A B C D E F;
    A B C D E F G;
    A B C D E F G H;
}

impl Key for u64 {
    const BITS: u32 = u64::BITS;

    fn encode(self) -> u64 {
        self
    }

    fn decode(word: u64) -> u64 {
        word
    }

    fn encode_all(keys: &[u64]) -> Cow<'_, [u64]> {
        keys.into()
    }
}

impl Key for bool {
    const BITS: u32 = 1;

    fn encode(self) -> u64 {
        self.into()
    }

    fn decode(word: u64) -> bool {
        word != 0
    }
}

impl Key for char {
    const BITS: u32 = 21;

    fn encode(self) -> u64 {
        self.into()
    }

    fn decode(word: u64) -> char {
        char::from_u32(word as u32).unwrap_or(char::REPLACEMENT_CHARACTER)
    }
}

impl Key for Ipv4Addr {
    const BITS: u32 = 32;

    fn encode(self) -> u64 {
        u32::from(self).into()
    }

    fn decode(word: u64) -> Ipv4Addr {
        Ipv4Addr::from(word as u32)
    }
}

impl<K: Key, const N: usize> Key for [K; N] {
    const BITS: u32 = together((K::BITS as u64).saturating_mul(N as u64));

    fn encode(self) -> u64 {
        let _ = Self::BITS;
        self.into_iter().fold(0, beside)
    }

    fn decode(word: u64) -> [K; N] {
        let mut behind = Self::BITS;
        [(); N].map(|()| part(word, &mut behind))
    }
}

#[cfg(test)]
mod tests {
    use super::*;
    use std::fmt::Debug;

    /// These ascend, and so do their words, which tell them again.
    fn ascend<K: Key + PartialEq + Debug>(keys: &[K]) {
        for key in keys {
            assert_eq!(K::decode(key.encode()), *key);
            assert!(key.encode() <= Words::<K>::GREATEST);
        }
        for pair in keys.windows(2) {
            assert!(pair[0].encode() < pair[1].encode(), "{:?} comes before {:?}", pair[0], pair[1]);
        }
        let words: Vec<u64> = keys.iter().map(|key| key.encode()).collect();
        assert_eq!(*K::encode_all(keys), words);
    }

    /// The ends have the least and the greatest word, so an index of these keys has no others.
    fn fill<K: Key + PartialEq + Debug>(keys: &[K]) {
        ascend(keys);
        assert_eq!(keys.first().map(|key| key.encode()), Some(0));
        assert_eq!(keys.last().map(|key| key.encode()), Some(Words::<K>::GREATEST));
    }

    #[test]
    fn words_of_numbers_ascend_with_them() {
        fill(&[0u8, 1, 127, 128, 255]);
        fill(&[0u16, 1, u16::MAX]);
        fill(&[0u32, 1, 1 << 31, u32::MAX]);
        fill(&[0u64, 1, 1 << 63, u64::MAX]);
        fill(&[0usize, 1, usize::MAX]);
        fill(&[i8::MIN, -1, 0, 1, i8::MAX]);
        fill(&[i16::MIN, -1, 0, 1, i16::MAX]);
        fill(&[i32::MIN, -1, 0, 1, i32::MAX]);
        fill(&[i64::MIN, -1, 0, 1, i64::MAX]);
        fill(&[isize::MIN, -1, 0, 1, isize::MAX]);
        fill(&[false, true]);
        ascend(&['\0', 'a', 'é', '\u{ffff}', char::MAX]);
        fill(&[Ipv4Addr::UNSPECIFIED, Ipv4Addr::new(10, 0, 0, 255), Ipv4Addr::new(10, 0, 1, 0), Ipv4Addr::BROADCAST]);
    }

    #[test]
    fn words_of_floating_numbers_ascend_with_them() {
        ascend(&[f64::NEG_INFINITY, f64::MIN, -1.5, -f64::MIN_POSITIVE, -5e-324, 0.0, 5e-324, 1.0, f64::MAX, f64::INFINITY]);
        ascend(&[f32::NEG_INFINITY, f32::MIN, -1.5, -f32::MIN_POSITIVE, -1e-45, 0.0, 1e-45, 1.0, f32::MAX, f32::INFINITY]);
        let mut numbers: Vec<f32> = (0..=u32::MAX).step_by(65_521).map(f32::from_bits).filter(|number| !number.is_nan()).collect();
        numbers.sort_by(|one, other| one.partial_cmp(other).unwrap());
        ascend(&numbers);
    }

    #[test]
    fn words_of_parts_ascend_as_their_first_parts_do() {
        fill(&[(0u32, 0u32), (0, u32::MAX), (1, 0), (1, 1), (u32::MAX, 0), (u32::MAX, u32::MAX)]);
        ascend(&[(-1i32, 1.5f32), (0, -1.0), (0, 0.0), (7, f32::NEG_INFINITY)]);
        ascend(&[(false, 'a', i16::MIN), (false, 'a', 0), (false, 'b', -1), (true, 'a', -1)]);
        fill(&[(0u8, false, i8::MIN, 0u16), (0, false, i8::MIN, 1), (0, true, -5, 0), (255, true, i8::MAX, u16::MAX)]);
        ascend(&[(1u8, 2u8, 3u8, 4u8, 5u8, 6u8, 7u8, 8u8), (1, 2, 3, 4, 5, 6, 8, 0), (2, 0, 0, 0, 0, 0, 0, 0)]);
        fill(&[(0u64,), (u64::MAX - 1,), (u64::MAX,)]);
        ascend(&[*b"abcdefgh", *b"abcdefgi", *b"b\0\0\0\0\0\0\0"]);
        fill(&[[0u8; 3], [0, 0, 1], [0, 1, 0], [255; 3]]);
        ascend(&[[-1i32, 5], [0, -7], [0, 7]]);
        fill(&[[i64::MIN], [-1], [i64::MAX]]);
        ascend(&[([b'a', b'b'], (false, 1i16)), ([b'a', b'b'], (true, -1)), ([b'b', b'a'], (false, 0))]);
        assert_eq!((7u32, 9u32).encode(), 7 << 32 | 9);
        assert_eq!([1u8, 2, 3].encode(), 0x01_02_03);
    }

    #[test]
    fn what_is_no_number_is_one_key_above_infinity() {
        for not in [f64::NAN, -f64::NAN, f64::from_bits(0xfff0_0000_0000_0001), f64::from_bits(0x7fff_ffff_ffff_ffff)] {
            assert_eq!(not.encode(), f64::NAN.encode());
            assert!(not.encode() > f64::INFINITY.encode());
            assert_eq!(f64::decode(not.encode()).to_bits(), f64::NAN.to_bits());
        }
        for not in [f32::NAN, -f32::NAN, f32::from_bits(0xff80_0001)] {
            assert_eq!(not.encode(), f32::NAN.encode());
            assert!(not.encode() > f32::INFINITY.encode());
            assert_eq!(f32::decode(not.encode()).to_bits(), f32::NAN.to_bits());
        }
    }

    #[test]
    fn zero_has_no_sign() {
        assert_eq!((-0.0f64).encode(), 0.0f64.encode());
        assert_eq!((-0.0f32).encode(), 0.0f32.encode());
        assert!(f64::decode((-0.0f64).encode()).is_sign_positive() && f32::decode((-0.0f32).encode()).is_sign_positive());
    }
}
