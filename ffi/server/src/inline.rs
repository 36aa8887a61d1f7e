//! Requests that a person types: words between spaces, in quotes where there is a space in them.

use std::iter::Peekable;
use std::slice::Iter;

/// A quote that isn't closed, or that goes on behind its end.
#[derive(Clone, Copy, Debug, PartialEq, Eq)]
pub struct UnbalancedQuotes;

type Bytes<'a> = Peekable<Iter<'a, u8>>;

/// The words of a line. In double quotes `\n`, `\r`, `\t`, `\a`, `\b`, `\xHH`, `\"` and `\\` are what they are in C; in single quotes
/// `\'` is a quote.
///
/// # Errors
/// Where a quote isn't closed, or something other than a space follows its end.
pub fn words_of(line: &[u8]) -> Result<Vec<Vec<u8>>, UnbalancedQuotes> {
    let mut bytes = line.iter().peekable();
    let mut words = Vec::new();
    loop {
        while bytes.next_if(|byte| byte.is_ascii_whitespace()).is_some() {}
        if bytes.peek().is_none() {
            return Ok(words);
        }
        words.push(word(&mut bytes)?);
    }
}

fn word(bytes: &mut Bytes) -> Result<Vec<u8>, UnbalancedQuotes> {
    let mut word = Vec::new();
    while let Some(byte) = bytes.next_if(|byte| !byte.is_ascii_whitespace()) {
        match byte {
            b'"' | b'\'' => {
                quoted(bytes, *byte, &mut word)?;
                return Ok(word);
            }
            _ => word.push(*byte),
        }
    }
    Ok(word)
}

/// Adds what stands up to the closing quote, behind which a space or the end of the line has to follow.
fn quoted(bytes: &mut Bytes, quote: u8, word: &mut Vec<u8>) -> Result<(), UnbalancedQuotes> {
    loop {
        match *bytes.next().ok_or(UnbalancedQuotes)? {
            b'\\' if quote == b'"' => word.push(escaped(bytes)?),
            b'\\' if bytes.next_if_eq(&&b'\'').is_some() => word.push(b'\''),
            byte if byte == quote => break,
            byte => word.push(byte),
        }
    }
    match bytes.peek() {
        Some(byte) if !byte.is_ascii_whitespace() => Err(UnbalancedQuotes),
        _ => Ok(()),
    }
}

/// The byte for which the bytes behind a backslash stand.
fn escaped(bytes: &mut Bytes) -> Result<u8, UnbalancedQuotes> {
    let letter = *bytes.next().ok_or(UnbalancedQuotes)?;
    Ok(match letter {
        b'n' => b'\n',
        b'r' => b'\r',
        b't' => b'\t',
        b'a' => 7,
        b'b' => 8,
        b'x' => hexadecimal(bytes).unwrap_or(b'x'),
        _ => letter,
    })
}

/// The number of the next two bytes, which are taken where both are digits.
fn hexadecimal(bytes: &mut Bytes) -> Option<u8> {
    let digit = |byte: Option<&u8>| byte.and_then(|byte| char::from(*byte).to_digit(16)).and_then(|digit| u8::try_from(digit).ok());
    let mut ahead = bytes.clone();
    let number = 16 * digit(ahead.next())? + digit(ahead.next())?;
    *bytes = ahead;
    Some(number)
}

#[cfg(test)]
mod tests {
    use super::*;

    fn words(line: &str) -> Result<Vec<String>, UnbalancedQuotes> {
        let text = |word: Vec<u8>| String::from_utf8(word).expect("the tests have text alone");
        Ok(words_of(line.as_bytes())?.into_iter().map(text).collect())
    }

    #[test]
    fn words_stand_between_spaces() {
        assert_eq!(words("  set 5\t50 "), Ok(vec!["set".into(), "5".into(), "50".into()]));
        assert_eq!(words(" "), Ok(vec![]));
        assert_eq!(words(""), Ok(vec![]));
    }

    #[test]
    fn quotes_hold_words_together() {
        assert_eq!(words(r#"echo "a b" 'c d' """#), Ok(vec!["echo".into(), "a b".into(), "c d".into(), "".into()]));
        assert_eq!(words(r#""a\n\x41\x4\"\\" 'it\'s\n'"#), Ok(vec!["a\nAx4\"\\".into(), "it's\\n".into()]));
    }

    #[test]
    fn quotes_that_are_open_are_refused() {
        for line in [r#""a"#, "'a", r#""a"b"#, "'a'b", r#""a\"#, r#"a"b"#] {
            assert_eq!(words(line), Err(UnbalancedQuotes), "{line}");
        }
    }
}
