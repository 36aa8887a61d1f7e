//! Patterns of `SCAN`, as Redis has them: `*`, `?`, `[a-z]`, `[^a-z]`, and a backslash before a sign that is meant itself.

/// Whether a text is as the pattern says.
pub(crate) fn matches(pattern: &[u8], text: &[u8]) -> bool {
    let (mut at, mut read) = (0, 0);
    // Where the last star stands, and how far the text was read when it took nothing.
    let mut star: Option<(usize, usize)> = None;
    loop {
        if pattern.get(at) == Some(&b'*') {
            star = Some((at, read));
            at += 1;
            continue;
        }
        let next = text.get(read).and_then(|byte| one(&pattern[at..], *byte));
        match (next, star) {
            (Some(length), _) => {
                at += length;
                read += 1;
            }
            (None, _) if at == pattern.len() && read == text.len() => return true,
            // The star takes one sign more.
            (None, Some((begin, taken))) if taken < text.len() => {
                star = Some((begin, taken + 1));
                at = begin + 1;
                read = taken + 1;
            }
            _ => return false,
        }
    }
}

/// The first signs of a pattern that are meant themselves: each text that is as it says begins with them.
pub(crate) fn literal_prefix(pattern: &[u8]) -> &[u8] {
    let end = pattern.iter().position(|sign| b"*?[\\".contains(sign));
    &pattern[..end.unwrap_or(pattern.len())]
}

/// The length of the pattern's first part, where that is one sign and the byte is one.
fn one(pattern: &[u8], byte: u8) -> Option<usize> {
    match *pattern {
        [b'?', ..] => Some(1),
        [b'[', ref class @ ..] => among(class, byte).map(|length| 1 + length),
        [b'\\', sign, ..] => (sign == byte).then_some(2),
        [sign, ..] => (sign == byte).then_some(1),
        [] => None,
    }
}

/// The length of a class with its closing bracket, where the byte is in it. A class that isn't closed goes to the end.
fn among(class: &[u8], byte: u8) -> Option<usize> {
    let is_other = class.first() == Some(&b'^');
    let mut at = usize::from(is_other);
    let mut is_in = false;
    loop {
        match class[at..] {
            [] => break,
            [b']', ..] => {
                at += 1;
                break;
            }
            [b'\\', sign, ..] => {
                is_in |= sign == byte;
                at += 2;
            }
            [one, b'-', other, ..] => {
                is_in |= (one.min(other)..=one.max(other)).contains(&byte);
                at += 3;
            }
            [sign, ..] => {
                is_in |= sign == byte;
                at += 1;
            }
        }
    }
    (is_in != is_other).then_some(at)
}

#[cfg(test)]
mod tests {
    use super::*;

    #[test]
    fn what_matches_begins_as_the_pattern_does() {
        let patterns = [("user:*", "user:"), ("a?", "a"), ("a[bc]", "a"), ("a\\*b", "a"), ("*", ""), ("", ""), ("abc", "abc")];
        for (pattern, prefix) in patterns {
            assert_eq!(literal_prefix(pattern.as_bytes()), prefix.as_bytes(), "{pattern}");
        }
    }

    #[test]
    fn patterns_are_as_in_redis() {
        let yes =
            [("*", ""), ("", ""), ("1*", "123"), ("*3", "123"), ("*2*", "123"), ("1?3", "123"), ("[1-3]23", "123"), ("[^4]23", "123")];
        let more = [("[321]", "2"), ("\\1", "1"), ("[3-1]", "2"), ("**", "12"), ("1*2*3", "1122233"), ("[1", "1"), ("*1*21", "112121")];
        let no =
            [("", "1"), ("1", ""), ("1*", "23"), ("?", "12"), ("[^1]", "1"), ("[2-3]", "1"), ("1*4", "123"), ("user:*", "5"), ("[^", "")];
        for (pattern, text) in yes.into_iter().chain(more) {
            assert!(matches(pattern.as_bytes(), text.as_bytes()), "{pattern} {text}");
        }
        for (pattern, text) in no {
            assert!(!matches(pattern.as_bytes(), text.as_bytes()), "{pattern} {text}");
        }
    }
}
