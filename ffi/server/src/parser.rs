//! From bytes, as they come, to requests: arrays of bulk strings as clients send them, and lines as people type them (RESP2, "Redis
//! serialization protocol specification").

use crate::inline::{words_of, UnbalancedQuotes};
use std::fmt;
use std::mem::size_of;

/// A request has at most so many words.
pub const MAX_WORDS: usize = 16_384;
/// A word has at most so many bytes.
pub const MAX_WORD: usize = 65_536;
/// The words of a request have at most so many bytes together.
pub const MAX_REQUEST: usize = 1_048_576;
/// A typed line, and a line with a length, has at most so many bytes.
pub const MAX_LINE: usize = 65_536;

/// The words of a request. There is one at least.
#[derive(Debug, Default)]
pub struct Request {
    text: Vec<u8>,
    /// Where each word ends in the text.
    ends: Vec<usize>,
}

impl Request {
    /// The words in their order.
    pub fn words(&self) -> Vec<&[u8]> {
        let begins = std::iter::once(&0).chain(&self.ends);
        begins.zip(&self.ends).map(|(begin, end)| &self.text[*begin..*end]).collect()
    }

    fn clear(&mut self) {
        self.text.clear();
        self.ends.clear();
    }

    fn push(&mut self, word: &[u8]) {
        self.text.extend_from_slice(word);
        self.ends.push(self.text.len());
    }
}

/// Why the bytes are no request. What follows them can't be read either.
#[derive(Clone, Copy, Debug, PartialEq, Eq)]
pub enum Broken {
    /// An array has a number of words that isn't from 0 to [`MAX_WORDS`].
    ArrayLength,
    /// A word has a length that isn't from 0 to [`MAX_WORD`].
    WordLength,
    /// A word of an array begins with this byte.
    WordKind(u8),
    /// A word is longer than it says.
    WordEnd,
    /// The words have more than [`MAX_REQUEST`] bytes together.
    TooMuch,
    /// A line has more than [`MAX_LINE`] bytes.
    LongLine,
    /// A typed line has a quote that isn't closed.
    Quotes,
}

impl fmt::Display for Broken {
    fn fmt(&self, text: &mut fmt::Formatter<'_>) -> fmt::Result {
        text.write_str("Protocol error: ")?;
        match self {
            Broken::ArrayLength => text.write_str("invalid multibulk length"),
            Broken::WordLength => text.write_str("invalid bulk length"),
            Broken::WordKind(byte) => write!(text, "expected '$', got '{}'", byte.escape_ascii()),
            Broken::WordEnd => text.write_str("expected the end of a bulk"),
            Broken::TooMuch => text.write_str("too big request"),
            Broken::LongLine => text.write_str("too big inline request"),
            Broken::Quotes => text.write_str("unbalanced quotes in request"),
        }
    }
}

impl From<UnbalancedQuotes> for Broken {
    fn from(_: UnbalancedQuotes) -> Broken {
        Broken::Quotes
    }
}

/// What comes next: a request, or in one the length of a word or a word of that length. So many words are to come, with this one.
#[derive(Clone, Copy, Debug)]
enum Expected {
    Request,
    Length { words: usize },
    Word { words: usize, length: usize },
}

/// Bytes that came, and how far they have been read.
#[derive(Debug)]
pub struct Parser {
    bytes: Vec<u8>,
    read: usize,
    /// Up to here no line ends.
    searched: usize,
    expected: Expected,
    request: Request,
}

impl Default for Parser {
    fn default() -> Parser {
        Parser { bytes: Vec::new(), read: 0, searched: 0, expected: Expected::Request, request: Request::default() }
    }
}

impl Parser {
    /// Adds bytes that came.
    pub fn feed(&mut self, bytes: &[u8]) {
        self.bytes.drain(..self.read);
        self.searched = self.searched.saturating_sub(self.read);
        self.read = 0;
        self.bytes.extend_from_slice(bytes);
    }

    /// Gives memory back but for some `room` bytes, while a next request is awaited. A part of one that came stays.
    pub fn shrink_to(&mut self, room: usize) {
        if self.read == self.bytes.len() {
            self.feed(&[]);
            self.bytes.shrink_to(room);
        }
        if matches!(self.expected, Expected::Request) {
            self.request.clear();
            self.request.text.shrink_to(room);
            self.request.ends.shrink_to(room / size_of::<usize>());
        }
    }

    /// The next request, where all of it has come. Empty lines and empty arrays are none.
    ///
    /// # Errors
    /// Where the bytes can't be a request. Nothing may be asked after that.
    pub fn request(&mut self) -> Result<Option<&Request>, Broken> {
        while let Some(is_whole) = self.step()? {
            if is_whole {
                return Ok(Some(&self.request));
            }
        }
        Ok(None)
    }

    /// Reads what is expected, where it has come, and says whether the request is whole then.
    fn step(&mut self) -> Result<Option<bool>, Broken> {
        match self.expected {
            Expected::Request => self.begin(),
            Expected::Length { words } => self.length(words),
            Expected::Word { words, length } => self.word(words, length),
        }
    }

    fn begin(&mut self) -> Result<Option<bool>, Broken> {
        let line = match self.line()? {
            Some((begin, end)) => &self.bytes[begin..end],
            None => return Ok(None),
        };
        self.request.clear();
        if let [b'*', digits @ ..] = line {
            let words = number_of(digits).filter(|words| *words <= MAX_WORDS as i64).ok_or(Broken::ArrayLength)?;
            if words > 0 {
                self.expected = Expected::Length { words: words as usize };
            }
            return Ok(Some(false));
        }
        for word in words_of(line)? {
            self.request.push(&word);
        }
        Ok(Some(!self.request.ends.is_empty()))
    }

    fn length(&mut self, words: usize) -> Result<Option<bool>, Broken> {
        let line = match self.line()? {
            Some((begin, end)) => &self.bytes[begin..end],
            None => return Ok(None),
        };
        let digits = match line {
            [b'$', digits @ ..] => digits,
            _ => return Err(Broken::WordKind(line.first().copied().unwrap_or(b'\r'))),
        };
        let length = number_of(digits).and_then(|length| usize::try_from(length).ok()).filter(|length| *length <= MAX_WORD);
        let length = length.ok_or(Broken::WordLength)?;
        if self.request.text.len() + length > MAX_REQUEST {
            return Err(Broken::TooMuch);
        }
        self.expected = Expected::Word { words, length };
        Ok(Some(false))
    }

    fn word(&mut self, words: usize, length: usize) -> Result<Option<bool>, Broken> {
        let came = &self.bytes[self.read..];
        if came.len() < length + 2 {
            return Ok(None);
        }
        let (word, rest) = came.split_at(length);
        if !rest.starts_with(b"\r\n") {
            return Err(Broken::WordEnd);
        }
        self.request.push(word);
        self.read += length + 2;
        let is_last = words == 1;
        self.expected = if is_last { Expected::Request } else { Expected::Length { words: words - 1 } };
        Ok(Some(is_last))
    }

    /// Where the next line begins and ends, without what ends it. It is read then.
    fn line(&mut self) -> Result<Option<(usize, usize)>, Broken> {
        let from = self.searched.max(self.read);
        let end = self.bytes[from..].iter().position(|byte| *byte == b'\n').map(|found| from + found);
        if end.unwrap_or(self.bytes.len()) - self.read > MAX_LINE {
            return Err(Broken::LongLine);
        }
        self.searched = end.map_or(self.bytes.len(), |end| end + 1);
        Ok(end.map(|end| {
            let begin = self.read;
            self.read = end + 1;
            (begin, if self.bytes[begin..end].ends_with(b"\r") { end - 1 } else { end })
        }))
    }
}

/// The number that digits make, with a minus before them or not.
fn number_of(digits: &[u8]) -> Option<i64> {
    std::str::from_utf8(digits).ok().filter(|text| !text.starts_with('+')).and_then(|text| text.parse().ok())
}

#[cfg(test)]
mod tests {
    use super::*;

    /// The requests in bytes that come in these pieces, each as its words joined by `|`, and what broke.
    fn read(pieces: &[&[u8]]) -> (Vec<String>, Option<Broken>) {
        let mut parser = Parser::default();
        let mut requests = Vec::new();
        for piece in pieces {
            parser.shrink_to(0);
            parser.feed(piece);
            loop {
                match parser.request() {
                    Ok(Some(request)) => requests.push(String::from_utf8_lossy(&request.words().join(&b'|')).into_owned()),
                    Ok(None) => break,
                    Err(broken) => return (requests, Some(broken)),
                }
            }
        }
        (requests, None)
    }

    const SEVERAL: &[u8] =
        b"*2\r\n$3\r\nGET\r\n$1\r\n5\r\nset 6  60\r\n\r\n*0\r\n*-1\r\nping\n*3\r\n$4\r\nECHO\r\n$0\r\n\r\n$4\r\n\r\n*1\r\n";

    #[test]
    fn requests_are_the_same_wherever_bytes_are_split() {
        let whole = read(&[SEVERAL]);
        assert_eq!(whole.0, ["GET|5", "set|6|60", "ping", "ECHO||\r\n*1"]);
        assert_eq!(whole.1, None);
        for middle in 0..=SEVERAL.len() {
            for end in middle..=SEVERAL.len() {
                assert_eq!(read(&[&SEVERAL[..middle], &SEVERAL[middle..end], &SEVERAL[end..]]), whole, "{middle}, {end}");
            }
        }
        let bytes: Vec<&[u8]> = SEVERAL.chunks(1).collect();
        assert_eq!(read(&bytes), whole);
    }

    #[test]
    fn part_of_a_request_is_none_yet() {
        for end in 0..SEVERAL.len() {
            assert!(read(&[&SEVERAL[..end]]).0.len() < 4);
        }
    }

    #[test]
    fn bad_bytes_are_refused_behind_the_requests_before_them() {
        let cases: [(&[u8], Broken); 11] = [
            (b"*x\r\n", Broken::ArrayLength),
            (b"*\r\n", Broken::ArrayLength),
            (b"*+1\r\n", Broken::ArrayLength),
            (b"*16385\r\n", Broken::ArrayLength),
            (b"*1\r\n$-1\r\n", Broken::WordLength),
            (b"*1\r\n$65537\r\n", Broken::WordLength),
            (b"*1\r\n$\r\n", Broken::WordLength),
            (b"*1\r\n:5\r\n", Broken::WordKind(b':')),
            (b"*1\r\n\r\n", Broken::WordKind(b'\r')),
            (b"*1\r\n$1\r\nabc\r\n", Broken::WordEnd),
            (b"get \"5\r\n", Broken::Quotes),
        ];
        for (bytes, broken) in cases {
            let all = [b"ping\r\n", bytes].concat();
            for middle in 0..=all.len() {
                assert_eq!(read(&[&all[..middle], &all[middle..]]), (vec!["ping".to_string()], Some(broken)), "{broken:?}, {middle}");
            }
        }
    }

    #[test]
    fn lengths_have_limits() {
        let line = [b'a'; MAX_LINE + 1];
        assert_eq!(read(&[&line[1..], b"\r\n"]).1, Some(Broken::LongLine));
        assert_eq!(read(&[&line[2..], b"\r\n"]).0.len(), 1);
        assert_eq!(read(&[&line]).1, Some(Broken::LongLine));
        let word = [b"$65536\r\n", &line[1..], b"\r\n"].concat();
        let words = |count: usize| [format!("*{count}\r\n").as_bytes(), &word.repeat(count)].concat();
        assert_eq!(read(&[&words(16)]).0.len(), 1);
        assert_eq!(read(&[&words(17)]).1, Some(Broken::TooMuch));
        let many = [b"*16384\r\n".to_vec(), b"$1\r\n5\r\n".repeat(MAX_WORDS)].concat();
        assert_eq!(read(&[&many]).0[0].len(), 2 * MAX_WORDS - 1);
    }

    /// Numbers that look drawn, the same in each run.
    struct Drawn(u64);

    impl Drawn {
        fn below(&mut self, end: usize) -> usize {
            self.0 = self.0.wrapping_mul(6_364_136_223_846_793_005).wrapping_add(1_442_695_040_888_963_407);
            (self.0 >> 33) as usize % end
        }
    }

    /// Pieces of requests and of bytes that are none, as drawn.
    fn made(drawn: &mut Drawn) -> Vec<u8> {
        const PARTS: &[u8] = b"*1\r\n|*2\r\n|$4\r\nPING\r\n|$0\r\n\r\n|\r\n|\n|\r|get 5\r\n|*|$|\"|7| |*-1\n|'a b'|\0\xff";
        let parts: Vec<&[u8]> = PARTS.split(|byte| *byte == b'|').collect();
        (0..drawn.below(12)).flat_map(|_| parts[drawn.below(parts.len())]).copied().collect()
    }

    #[test]
    fn whatever_comes_is_read_the_same_in_pieces() {
        let mut drawn = Drawn(1);
        let (mut whole_ones, mut broken_ones) = (0, 0);
        for round in 0..20_000 {
            let bytes = made(&mut drawn);
            let whole = read(&[&bytes]);
            whole_ones += whole.0.len();
            broken_ones += usize::from(whole.1.is_some());
            let single: Vec<&[u8]> = bytes.chunks(1).collect();
            assert_eq!(read(&single), whole, "{round}: {bytes:?}");
            let middle = drawn.below(bytes.len() + 1);
            assert_eq!(read(&[&bytes[..middle], &bytes[middle..]]), whole, "{round}, {middle}: {bytes:?}");
        }
        assert!(whole_ones > 5_000 && broken_ones > 5_000, "{whole_ones} requests, {broken_ones} broken");
    }

    #[test]
    fn memory_is_given_back_between_requests() {
        let mut parser = Parser::default();
        parser.feed(&[b"ECHO ".to_vec(), vec![b'a'; 60_000], b"\r\nPI".to_vec()].concat());
        assert!(matches!(parser.request(), Ok(Some(_))));
        parser.shrink_to(100);
        assert!(parser.bytes.capacity() > 60_000 && parser.request.text.capacity() <= 100);
        parser.feed(b"NG\r\n");
        assert!(matches!(parser.request(), Ok(Some(request)) if request.words() == [b"PING"]));
        parser.shrink_to(100);
        assert!(parser.bytes.capacity() <= 100);
    }
}
