//! What the words of a request spell: numbers, and names in small or capital letters.

use crate::refusals::{Refusal, Role};
use std::str::FromStr;

/// The longest name of a command, or of an option of one.
const LONGEST_NAME: usize = 11;

/// A name in capitals. A word that is longer than all names is none.
#[derive(Clone, Copy, Debug)]
pub(crate) struct Name {
    place: [u8; LONGEST_NAME],
    length: usize,
}

impl Name {
    #[inline]
    pub(crate) fn of(word: &[u8]) -> Name {
        let mut name = Name { place: [0; LONGEST_NAME], length: 0 };
        if let Some(place) = name.place.get_mut(..word.len()) {
            place.iter_mut().zip(word).for_each(|(place, byte)| *place = byte.to_ascii_uppercase());
            name.length = word.len();
        }
        name
    }

    #[inline]
    pub(crate) fn capitals(&self) -> &[u8] {
        &self.place[..self.length]
    }
}

/// The number that a word spells, in the one way in which it may be spelled. So a proxy, which shares keys out by their bytes, takes no key
/// for two, and a value comes back as it was sent.
fn number<N: FromStr>(word: &[u8], role: Role) -> Result<N, Refusal> {
    let text = std::str::from_utf8(word).ok().filter(|text| !text.starts_with('+')).ok_or(Refusal::Number(role))?;
    let number = text.parse().map_err(|_| Refusal::Number(role))?;
    let digits = text.strip_prefix('-').unwrap_or(text);
    if digits.starts_with('0') && text != "0" {
        return Err(Refusal::Spelling(role));
    }
    Ok(number)
}

/// The number that these digits spell, where they are so few that it isn't too great. Mostly that is what comes.
#[inline]
fn digits(word: &[u8]) -> Option<u64> {
    const SAFE: usize = 19;
    match word {
        [] | [b'0', _, ..] => None,
        _ if word.len() > SAFE => None,
        _ => word.iter().try_fold(0, |sum, byte| byte.is_ascii_digit().then(|| 10 * sum + u64::from(byte - b'0'))),
    }
}

#[inline]
pub(crate) fn key_of(word: &[u8]) -> Result<u64, Refusal> {
    digits(word).map_or_else(|| number(word, Role::Key), Ok)
}

#[inline]
pub(crate) fn value_of(word: &[u8]) -> Result<u64, Refusal> {
    digits(word).map_or_else(|| number(word, Role::Value), Ok)
}

/// What is to be added, with a minus before it or not.
pub(crate) fn amount(word: &[u8]) -> Result<i64, Refusal> {
    number(word, Role::Value)
}

/// What is added where this is to be taken away.
pub(crate) fn negative(word: &[u8]) -> Result<i64, Refusal> {
    amount(word)?.checked_neg().ok_or(Refusal::Decrement)
}

/// A time or the like, which Redis reads as strictly but refuses in one way.
pub(crate) fn integer(word: &[u8]) -> Result<i64, Refusal> {
    amount(word).map_err(|_| Refusal::Number(Role::Value))
}

#[cfg(test)]
mod tests {
    use super::*;

    #[test]
    fn few_digits_spell_what_all_do() {
        let words =
            ["0", "5", "10", "9999999999999999999", "10000000000000000000", "18446744073709551615", "18446744073709551616", "", "05", "00"];
        for word in words.into_iter().chain(["-5", "+5", "5x", "x", "5 ", "99999999999999999999"]) {
            assert_eq!(key_of(word.as_bytes()), number(word.as_bytes(), Role::Key), "{word}");
        }
    }
}
