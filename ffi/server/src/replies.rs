//! From answers to the bytes of RESP2, or of RESP3 where a client asked for that.

use crate::session_commands::Protocol;
use std::sync::Arc;

/// A key or a value, as a reply tells it.
pub trait Tells {
    /// Adds it.
    fn tell(&self, replies: &mut Replies);
}

impl Tells for u64 {
    #[inline]
    fn tell(&self, replies: &mut Replies) {
        replies.number(*self);
    }
}

impl Tells for Arc<[u8]> {
    fn tell(&self, replies: &mut Replies) {
        replies.bulk(self);
    }
}

impl Tells for Vec<u8> {
    fn tell(&self, replies: &mut Replies) {
        replies.bulk(self);
    }
}

/// Replies, and how far they have been sent.
#[derive(Debug, Default)]
pub struct Replies {
    bytes: Vec<u8>,
    sent: usize,
    protocol: Protocol,
}

impl Replies {
    /// What hasn't been sent.
    pub fn unsent(&self) -> &[u8] {
        &self.bytes[self.sent..]
    }

    /// So many bytes of that were sent.
    pub fn were_sent(&mut self, count: usize) {
        self.sent += count;
        if self.unsent().is_empty() {
            self.bytes.clear();
            self.sent = 0;
        }
    }

    /// Gives memory back but for so many bytes, where all was sent.
    pub fn shrink_to(&mut self, room: usize) {
        self.bytes.shrink_to(room);
    }

    /// Replies are written in this protocol from now on.
    pub fn speak(&mut self, protocol: Protocol) {
        self.protocol = protocol;
    }

    /// A word that says how it went.
    pub fn status(&mut self, word: &str) {
        self.line(b'+', word.as_bytes());
    }

    /// What went wrong, the kind of error first. An end of line in it becomes a space.
    pub fn error(&mut self, text: &str) {
        let text: Vec<u8> = text.bytes().map(|byte| if byte == b'\r' || byte == b'\n' { b' ' } else { byte }).collect();
        self.line(b'-', &text);
    }

    /// A number that counts. Clients take it for one of at most 2^63 - 1.
    pub fn count(&mut self, number: u64) {
        self.line(b':', Decimal::of(number).digits());
    }

    /// Bytes, whatever they are.
    pub fn bulk(&mut self, bytes: &[u8]) {
        self.line(b'$', Decimal::of(bytes.len() as u64).digits());
        self.bytes.extend_from_slice(bytes);
        self.bytes.extend_from_slice(b"\r\n");
    }

    /// A key or a value.
    pub fn number(&mut self, number: u64) {
        self.bulk(Decimal::of(number).digits());
    }

    /// A key or a value that may be absent.
    pub fn or_nil<T: Tells>(&mut self, told: Option<T>) {
        match told {
            Some(told) => told.tell(self),
            None => self.nil(),
        }
    }

    /// Something that is absent.
    pub fn nil(&mut self) {
        self.bytes.extend_from_slice(match self.protocol {
            Protocol::Second => b"$-1\r\n",
            Protocol::Third => b"_\r\n",
        });
    }

    /// A text for people.
    pub fn text(&mut self, text: &str) {
        match self.protocol {
            Protocol::Second => self.bulk(text.as_bytes()),
            Protocol::Third => {
                self.line(b'=', Decimal::of(text.len() as u64 + 4).digits());
                self.bytes.extend_from_slice(b"txt:");
                self.bytes.extend_from_slice(text.as_bytes());
                self.bytes.extend_from_slice(b"\r\n");
            }
        }
    }

    /// A number that counts, or tells of an absence where it is below 0.
    pub fn signed(&mut self, number: i64) {
        if number < 0 {
            self.bytes.extend_from_slice(b":-");
            self.bytes.extend_from_slice(Decimal::of(number.unsigned_abs()).digits());
            self.bytes.extend_from_slice(b"\r\n");
        } else {
            self.count(number.unsigned_abs());
        }
    }

    /// The begin of a map: so many pairs of replies follow.
    pub fn map(&mut self, length: usize) {
        match self.protocol {
            Protocol::Second => self.array(2 * length),
            Protocol::Third => self.line(b'%', Decimal::of(length as u64).digits()),
        }
    }

    /// The begin of an array: so many replies follow.
    pub fn array(&mut self, length: usize) {
        self.line(b'*', Decimal::of(length as u64).digits());
    }

    fn line(&mut self, kind: u8, text: &[u8]) {
        self.bytes.push(kind);
        self.bytes.extend_from_slice(text);
        self.bytes.extend_from_slice(b"\r\n");
    }
}

/// The digits of a number, at the end of their place.
struct Decimal {
    place: [u8; 20],
    begin: usize,
}

impl Decimal {
    fn of(mut number: u64) -> Decimal {
        let mut decimal = Decimal { place: [b'0'; 20], begin: 19 };
        while number >= 10 {
            decimal.place[decimal.begin] = b'0' + (number % 10) as u8;
            decimal.begin -= 1;
            number /= 10;
        }
        decimal.place[decimal.begin] = b'0' + number as u8;
        decimal
    }

    fn digits(&self) -> &[u8] {
        &self.place[self.begin..]
    }
}

#[cfg(test)]
mod tests {
    use super::*;

    #[test]
    fn numbers_are_written_as_std_writes_them() {
        for number in [0, 7, 9, 10, 99, 100, 12_345, u64::MAX / 10, u64::MAX] {
            assert_eq!(Decimal::of(number).digits(), number.to_string().as_bytes());
        }
    }

    #[test]
    fn replies_stand_one_behind_the_other() {
        let mut replies = Replies::default();
        replies.status("OK");
        replies.error("ERR a\r\nb");
        replies.count(12);
        replies.array(3);
        replies.bulk(b"");
        replies.number(345);
        replies.or_nil(None::<u64>);
        assert_eq!(replies.unsent(), b"+OK\r\n-ERR a  b\r\n:12\r\n*3\r\n$0\r\n\r\n$3\r\n345\r\n$-1\r\n");
    }

    #[test]
    fn the_third_protocol_has_kinds_of_its_own() {
        let mut replies = Replies::default();
        for protocol in [Protocol::Second, Protocol::Third] {
            replies.speak(protocol);
            replies.nil();
            replies.map(2);
            replies.text("ab");
            replies.signed(-2);
            replies.signed(2);
        }
        let (second, third) = ("$-1\r\n*4\r\n$2\r\nab\r\n:-2\r\n:2\r\n", "_\r\n%2\r\n=6\r\ntxt:ab\r\n:-2\r\n:2\r\n");
        assert_eq!(String::from_utf8_lossy(replies.unsent()), [second, third].concat());
    }

    #[test]
    fn what_was_sent_is_forgotten_when_all_was() {
        let mut replies = Replies::default();
        replies.status("OK");
        replies.were_sent(2);
        assert_eq!(replies.unsent(), b"K\r\n");
        replies.count(1);
        replies.were_sent(3);
        assert_eq!(replies.unsent(), b":1\r\n");
        replies.were_sent(4);
        assert_eq!(replies.unsent(), b"");
        replies.shrink_to(0);
        replies.count(2);
        assert_eq!(replies.unsent(), b":2\r\n");
    }
}
