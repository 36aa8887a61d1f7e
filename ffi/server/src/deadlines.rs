//! How requests say when a key goes: the times and options of `SET`, `GETEX` and `EXPIRE`, as Redis reads them.

use crate::clock;
use crate::refusals::{shown, Refusal};
use crate::words::{integer, Name};

/// What a time counts.
#[derive(Clone, Copy, Debug, PartialEq, Eq)]
pub enum Unit {
    /// Seconds.
    Seconds,
    /// Milliseconds.
    Milliseconds,
}

/// How a request says a moment.
#[derive(Clone, Copy, Debug, PartialEq, Eq)]
pub enum Time {
    /// So long after this moment.
    After(Unit),
    /// So long after the begin of 1970.
    At(Unit),
}

impl Time {
    /// The moment in milliseconds since the begin of 1970, which may be below 0.
    fn moment(self, word: &[u8], name: &'static str) -> Result<i64, Refusal> {
        let count = integer(word)?;
        let (Time::After(unit) | Time::At(unit)) = self;
        let milliseconds = match unit {
            Unit::Seconds => count.checked_mul(1_000),
            Unit::Milliseconds => Some(count),
        };
        let begin = match self {
            Time::After(_) => i64::try_from(clock::now()).unwrap_or(i64::MAX),
            Time::At(_) => 0,
        };
        milliseconds.and_then(|time| time.checked_add(begin)).ok_or(Refusal::ExpireTime { name })
    }

    /// The deadline of a value that this command puts in. Its time has to be above 0.
    ///
    /// # Errors
    /// Where it isn't, or isn't a number, or too great.
    pub(crate) fn of_value(self, word: &[u8], name: &'static str) -> Result<u64, Refusal> {
        if integer(word)? <= 0 {
            return Err(Refusal::ExpireTime { name });
        }
        u64::try_from(self.moment(word, name)?).map_err(|_| Refusal::ExpireTime { name })
    }

    /// The deadline that this command gives to a key that is there. A moment before 1970 is its begin.
    ///
    /// # Errors
    /// Where the time isn't a number, or too great.
    pub(crate) fn of_key(self, word: &[u8], name: &'static str) -> Result<u64, Refusal> {
        Ok(u64::try_from(self.moment(word, name)?).unwrap_or(0))
    }
}

/// What a command does to the deadline of a key.
#[derive(Clone, Copy, Debug, PartialEq, Eq)]
pub enum Stay {
    /// The key has none from now on.
    ForGood,
    /// It stays as it is.
    AsItWas,
    /// The key goes at this moment.
    Until(u64),
}

impl Stay {
    /// The deadline from now on, where it was this one.
    pub fn deadline(self, before: Option<u64>) -> Option<u64> {
        match self {
            Stay::ForGood => None,
            Stay::AsItWas => before,
            Stay::Until(deadline) => Some(deadline),
        }
    }
}

/// In which case a `SET` puts its value in.
#[derive(Clone, Copy, Debug, PartialEq, Eq)]
pub enum Case {
    /// In each.
    Any,
    /// Where the key is absent.
    Absent,
    /// Where the key is present.
    Present,
}

/// The options of a `SET`.
#[derive(Clone, Copy, Debug, PartialEq, Eq)]
pub struct Options {
    /// When it puts the value in.
    pub case: Case,
    /// How long the key stays then.
    pub stay: Stay,
    /// Whether the value before is told.
    pub tells_before: bool,
}

/// A time that an option says: its word is read when all options have been.
type Said<'r> = Option<(Time, &'r [u8])>;

/// The time of an option with this name.
fn time_of(name: &[u8]) -> Option<Time> {
    match name {
        b"EX" => Some(Time::After(Unit::Seconds)),
        b"PX" => Some(Time::After(Unit::Milliseconds)),
        b"EXAT" => Some(Time::At(Unit::Seconds)),
        b"PXAT" => Some(Time::At(Unit::Milliseconds)),
        _ => None,
    }
}

/// Adds one time to what was said: an option may come twice, but no two of the four may be together.
fn say<'r>(said: &mut Said<'r>, time: Time, word: Option<&&'r [u8]>) -> Result<(), Refusal> {
    match (*said, word) {
        (Some((before, _)), _) if before != time => Err(Refusal::Syntax),
        (_, Some(word)) => {
            *said = Some((time, word));
            Ok(())
        }
        (_, None) => Err(Refusal::Syntax),
    }
}

impl Default for Options {
    /// Those of a `SET` that has none.
    fn default() -> Options {
        Options { case: Case::Any, stay: Stay::ForGood, tells_before: false }
    }
}

impl Options {
    /// The options of a `SET`.
    pub(crate) fn of_set(words: &[&[u8]]) -> Result<Options, Refusal> {
        let mut options = Options::default();
        let mut said: Said = None;
        let mut words = words.iter();
        while let Some(word) = words.next() {
            match Name::of(word).capitals() {
                b"NX" if options.case != Case::Present => options.case = Case::Absent,
                b"XX" if options.case != Case::Absent => options.case = Case::Present,
                b"GET" => options.tells_before = true,
                b"KEEPTTL" if said.is_none() => options.stay = Stay::AsItWas,
                name => match time_of(name) {
                    Some(time) if options.stay == Stay::ForGood => say(&mut said, time, words.next())?,
                    _ => return Err(Refusal::Syntax),
                },
            }
        }
        if let Some((time, word)) = said {
            options.stay = Stay::Until(time.of_value(word, "set")?);
        }
        Ok(options)
    }
}

impl Stay {
    /// The options of a `GETEX`.
    pub(crate) fn of_get(words: &[&[u8]]) -> Result<Stay, Refusal> {
        let mut said: Said = None;
        let mut stay = Stay::AsItWas;
        let mut words = words.iter();
        while let Some(word) = words.next() {
            match Name::of(word).capitals() {
                b"PERSIST" if said.is_none() => stay = Stay::ForGood,
                name => match time_of(name) {
                    Some(time) if stay == Stay::AsItWas => say(&mut said, time, words.next())?,
                    _ => return Err(Refusal::Syntax),
                },
            }
        }
        match said {
            Some((time, word)) => Ok(Stay::Until(time.of_value(word, "getex")?)),
            None => Ok(stay),
        }
    }
}

/// In which cases an `EXPIRE` gives a key its deadline.
#[derive(Clone, Copy, Debug, Default, PartialEq, Eq)]
pub struct Only {
    /// Where it has none.
    pub without: bool,
    /// Where it has one.
    pub with: bool,
    /// Where it goes later by that. A key without one stays for ever, so it never goes later.
    pub later: bool,
    /// Where it goes earlier by that.
    pub earlier: bool,
}

impl Only {
    /// The options of an `EXPIRE` and of the three like it.
    pub(crate) fn of(words: &[&[u8]]) -> Result<Only, Refusal> {
        let mut only = Only::default();
        for word in words {
            match Name::of(word).capitals() {
                b"NX" => only.without = true,
                b"XX" => only.with = true,
                b"GT" => only.later = true,
                b"LT" => only.earlier = true,
                _ => return Err(Refusal::ExpireOption(shown(word))),
            }
        }
        if only.without && (only.with || only.later || only.earlier) {
            return Err(Refusal::Told("ERR NX and XX, GT or LT options at the same time are not compatible"));
        }
        if only.later && only.earlier {
            return Err(Refusal::Told("ERR GT and LT options at the same time are not compatible"));
        }
        Ok(only)
    }

    /// Whether a key with this deadline gets the new one.
    pub fn allows(self, before: Option<u64>, new: u64) -> bool {
        match before {
            None => !self.with && !self.later,
            Some(before) => !(self.without || self.later && new <= before || self.earlier && new >= before),
        }
    }
}

#[cfg(test)]
mod tests {
    use super::*;

    #[test]
    fn a_key_gets_a_deadline_in_the_cases_that_are_named() {
        let only =
            |text: &str| Only::of(&text.split_whitespace().map(str::as_bytes).collect::<Vec<_>>()).expect("the tests have good ones");
        let allowed = |text: &str| [None, Some(10), Some(20), Some(30)].map(|before| only(text).allows(before, 20));
        assert_eq!(allowed(""), [true; 4]);
        assert_eq!(allowed("nx"), [true, false, false, false]);
        assert_eq!(allowed("XX"), [false, true, true, true]);
        assert_eq!(allowed("GT"), [false, true, false, false]);
        assert_eq!(allowed("LT"), [true, false, false, true]);
        assert_eq!(allowed("LT XX"), [false, false, false, true]);
    }

    #[test]
    fn times_end_where_moments_do() {
        let at = Time::At(Unit::Seconds);
        assert_eq!(at.of_value(b"9223372036854775", "set"), Ok(9_223_372_036_854_775_000));
        assert_eq!(at.of_value(b"9223372036854776", "set"), Err(Refusal::ExpireTime { name: "set" }));
        assert_eq!(Time::At(Unit::Milliseconds).of_value(b"9223372036854775807", "set"), Ok((1 << 63) - 1));
        assert_eq!(Time::After(Unit::Milliseconds).of_value(b"9223372036854775807", "set"), Err(Refusal::ExpireTime { name: "set" }));
        assert_eq!(at.of_value(b"0", "set"), Err(Refusal::ExpireTime { name: "set" }));
        assert_eq!(at.of_key(b"-5", "expireat"), Ok(0));
        assert!(Time::After(Unit::Seconds).of_key(b"10", "expire").expect("it is a number") >= clock::now());
    }
}
