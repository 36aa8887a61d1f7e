//! What keys and values are: numbers, or any bytes.

use crate::refusals::Refusal;
use crate::replies::Tells;
use crate::store::Uncounted;
use crate::words::{integer, key_of, value_of};
use std::fmt::Debug;
use std::sync::Arc;

/// A key of a request.
pub trait Key<'a>: Copy + Debug + Eq {
    /// What its keys have.
    type Value: Value;
    /// An end of a range.
    type End: Copy + Debug + Eq;

    /// The key that a word is.
    ///
    /// # Errors
    /// Where it is none.
    fn of(word: &'a [u8]) -> Result<Self, Refusal>;

    /// The end of a range that a word is.
    ///
    /// # Errors
    /// Where it is none.
    fn end_of(word: &'a [u8]) -> Result<Self::End, Refusal>;
}

/// A value of a key.
pub trait Value: Tells + Clone + Debug + Eq {
    /// The value that a word is.
    ///
    /// # Errors
    /// Where it is none.
    fn of(word: &[u8]) -> Result<Self, Refusal>;

    /// The value with so much added, from 0 where there is none, and that as an integer.
    ///
    /// # Errors
    /// Where one of both is no integer of the protocol that such values may be.
    fn sum(before: Option<&Self>, amount: i64) -> Result<(Self, i64), Uncounted>;
}

impl<'a> Key<'a> for u64 {
    type Value = u64;
    type End = u64;

    #[inline]
    fn of(word: &'a [u8]) -> Result<u64, Refusal> {
        key_of(word)
    }

    /// A number, or `-` for the least key and `+` for the greatest.
    fn end_of(word: &'a [u8]) -> Result<u64, Refusal> {
        match word {
            b"-" => Ok(0),
            b"+" => Ok(u64::MAX),
            _ => key_of(word),
        }
    }
}

impl Value for u64 {
    #[inline]
    fn of(word: &[u8]) -> Result<u64, Refusal> {
        value_of(word)
    }

    fn sum(before: Option<&u64>, amount: i64) -> Result<(u64, i64), Uncounted> {
        let value = i64::try_from(before.copied().unwrap_or(0)).map_err(|_| Uncounted::TooLarge)?;
        let sum = value.checked_add(amount).ok_or(Uncounted::Overflow)?;
        u64::try_from(sum).map(|value| (value, sum)).map_err(|_| Uncounted::Overflow)
    }
}

/// An end of a range of keys that are bytes.
#[derive(Clone, Copy, Debug, PartialEq, Eq)]
pub enum End<'a> {
    /// Before all keys.
    Least,
    /// This key, which is in the range.
    At(&'a [u8]),
    /// This key, which isn't.
    Beside(&'a [u8]),
    /// Behind all keys.
    Greatest,
}

/// Any bytes.
impl<'a> Key<'a> for &'a [u8] {
    type Value = Arc<[u8]>;
    type End = End<'a>;

    fn of(word: &'a [u8]) -> Result<&'a [u8], Refusal> {
        Ok(word)
    }

    /// As those of Redis's `ZRANGEBYLEX`: a key behind `[` is in the range, and one behind `(` isn't; `-` is before all and `+` behind all.
    fn end_of(word: &'a [u8]) -> Result<End<'a>, Refusal> {
        match word {
            b"-" => Ok(End::Least),
            b"+" => Ok(End::Greatest),
            [b'[', key @ ..] => Ok(End::At(key)),
            [b'(', key @ ..] => Ok(End::Beside(key)),
            _ => Err(Refusal::Told("ERR min or max not valid string range item")),
        }
    }
}

/// Any bytes. They are counted as Redis counts them: where they are an integer of 64 bits with a sign.
impl Value for Arc<[u8]> {
    fn of(word: &[u8]) -> Result<Arc<[u8]>, Refusal> {
        Ok(word.into())
    }

    fn sum(before: Option<&Arc<[u8]>>, amount: i64) -> Result<(Arc<[u8]>, i64), Uncounted> {
        let value = before.map_or(Ok(0), |text| integer(text)).map_err(|_| Uncounted::TooLarge)?;
        let sum = value.checked_add(amount).ok_or(Uncounted::Overflow)?;
        Ok((sum.to_string().into_bytes().into(), sum))
    }
}

#[cfg(test)]
mod tests {
    use super::*;

    #[test]
    fn sums_of_numbers_stay_integers_of_the_protocol() {
        let sum = |value: u64, amount| u64::sum(Some(&value), amount).map(|(value, _)| value);
        assert_eq!(sum(5, -5), Ok(0));
        assert_eq!(sum(5, -6), Err(Uncounted::Overflow));
        assert_eq!(sum(0, i64::MIN), Err(Uncounted::Overflow));
        assert_eq!(sum(i64::MAX as u64 - 1, 1), Ok(i64::MAX as u64));
        assert_eq!(sum(i64::MAX as u64, 1), Err(Uncounted::Overflow));
        assert_eq!(sum(i64::MAX as u64 + 1, -1), Err(Uncounted::TooLarge));
        assert_eq!(u64::sum(None, 7), Ok((7, 7)));
    }

    #[test]
    fn sums_of_bytes_are_those_of_redis() {
        let sum = |text: &str, amount| Value::sum(Some(&Arc::from(text.as_bytes())), amount).map(|(_, sum): (Arc<[u8]>, i64)| sum);
        assert_eq!((sum("5", -6), sum("-1", 1), sum("0", i64::MIN)), (Ok(-1), Ok(0), Ok(i64::MIN)));
        for text in ["", "x", "05", "+5", " 5", "5 ", "-0", "9223372036854775808"] {
            assert_eq!(sum(text, 1), Err(Uncounted::TooLarge), "{text}");
        }
        assert_eq!((sum("9223372036854775807", 1), sum("-9223372036854775808", -1)), (Err(Uncounted::Overflow), Err(Uncounted::Overflow)));
        assert_eq!(Value::sum(None, -7), Ok((Arc::from(&b"-7"[..]), -7)));
    }
}
