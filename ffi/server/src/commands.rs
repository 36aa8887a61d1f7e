//! From requests to commands.

use crate::deadlines::{Only, Options, Stay, Time, Unit};
use crate::keys::{Key, Value};
use crate::parser::Request;
use crate::refusals::{shown, Refusal};
use crate::session_commands::{self, SessionCommand};
use crate::words::{amount, integer, negative, value_of, Name};

/// So many pairs a `RANGE` or `REVRANGE` tells where it has no limit.
pub const DEFAULT_LIMIT: usize = 1_000;
/// The greatest limit of a `RANGE`.
pub const MAX_LIMIT: usize = 65_536;
/// The greatest limit of a `REVRANGE`, which searches for each pair.
pub const MAX_LIMIT_DOWN: usize = 8_192;
/// So many keys a `SCAN` looks at where it says nothing, as in Redis.
const DEFAULT_COUNT: usize = 10;

/// Which pairs a `RANGE` or `REVRANGE` tells.
#[derive(Clone, Copy, Debug, PartialEq, Eq)]
pub struct Range<E> {
    /// The least key.
    pub low: E,
    /// The greatest key.
    pub high: E,
    /// So many pairs at most, and one at least.
    pub limit: usize,
    /// Whether it begins at the greatest key.
    pub is_down: bool,
}

/// Which keys a `SCAN` tells.
#[derive(Clone, Copy, Debug, PartialEq, Eq)]
pub struct Scan<'a> {
    /// Where it goes on, or 0.
    pub from: u64,
    /// So many keys are looked at, at most, and one at least.
    pub count: usize,
    /// What they look like.
    pub pattern: Option<&'a [u8]>,
    /// Whether keys of this type are asked for: all have one type.
    pub are_strings: bool,
}

/// What a request asks for. Keys and values are what they are to be by then, and times are moments.
#[derive(Clone, Debug, PartialEq, Eq)]
pub enum Command<'a, K: Key<'a>> {
    /// A sign of life, with this answer or `PONG`.
    Ping(Option<&'a [u8]>),
    /// The same word back.
    Echo(&'a [u8]),
    /// The key's value.
    Get(K),
    /// The values of these keys, one after another.
    GetMany(Vec<K>),
    /// The key's value, and what becomes of its deadline.
    GetAndExpire {
        /// The key.
        key: K,
        /// How long it stays from now on.
        stay: Stay,
    },
    /// The key gets this value, and no deadline.
    Set {
        /// The key.
        key: K,
        /// Its value from now on.
        value: K::Value,
    },
    /// The same with options.
    SetAs {
        /// The key.
        key: K,
        /// Its value from now on, in the cases that the options say.
        value: K::Value,
        /// In which cases, how long it stays, and what is told.
        options: Options,
    },
    /// Each of these keys gets the value beside it, one after another.
    SetMany(Vec<(K, K::Value)>),
    /// The key gets this value, and the one before is told.
    Exchange {
        /// The key.
        key: K,
        /// Its value from now on.
        value: K::Value,
    },
    /// So much is added to the key's value, from 0 where it is absent.
    Add {
        /// The key.
        key: K,
        /// What is added, or taken away where it is below 0.
        amount: i64,
    },
    /// The key gets this value where it is absent.
    SetIfAbsent {
        /// The key.
        key: K,
        /// Its value, where it has none.
        value: K::Value,
    },
    /// The key gets this deadline in these cases. One that is over takes it out.
    Expire {
        /// The key.
        key: K,
        /// When it goes, in milliseconds since the begin of 1970.
        deadline: u64,
        /// In which cases.
        only: Only,
    },
    /// The key stays for good from now on.
    Persist(K),
    /// When the key goes.
    Deadline {
        /// The key.
        key: K,
        /// In what it is told.
        unit: Unit,
        /// Whether it is told how long that is from now on.
        is_from_now: bool,
    },
    /// These keys are taken out, one after another.
    Delete(Vec<K>),
    /// The key is taken out, and its value told.
    Take(K),
    /// How many of these keys are present, one after another.
    Exist(Vec<K>),
    /// The type of the key's value.
    Type(K),
    /// Pairs in the order of their keys.
    Range(Range<K::End>),
    /// Keys in their order.
    Scan(Scan<'a>),
    /// How many pairs there are.
    Size,
    /// All pairs are taken out.
    Clear,
    /// What the server knows of itself, by sections with these names.
    Info(Vec<&'a [u8]>),
    /// Which commands there are. Redis's tools ask this when they start, and make do with no answer.
    Commands,
    /// A setting.
    Setting(&'a [u8]),
    /// What is about the connection.
    Session(SessionCommand<'a>),
    /// The connection is to end.
    Quit,
    /// A line of HTTP, as a web page has a browser send it to any port. The connection is to end at once: what follows are no commands of
    /// somebody who means this server.
    Http,
}

/// The pairs of an `MSET`, where their number is even and there is one.
fn pairs<'a, K: Key<'a>>(words: &[&'a [u8]]) -> Result<Vec<(K, K::Value)>, Refusal> {
    if words.is_empty() || words.len() % 2 != 0 {
        return Err(Refusal::Arguments { name: "mset".into() });
    }
    words.chunks_exact(2).map(|pair| Ok((K::of(pair[0])?, Value::of(pair[1])?))).collect()
}

fn keys<'a, K: Key<'a>>(words: &[&'a [u8]]) -> Result<Vec<K>, Refusal> {
    words.iter().map(|word| K::of(word)).collect()
}

impl<E> Range<E> {
    fn of<'a, K: Key<'a, End = E>>(low: &'a [u8], high: &'a [u8], rest: &[&[u8]], is_down: bool) -> Result<Range<E>, Refusal> {
        let most = if is_down { MAX_LIMIT_DOWN } else { MAX_LIMIT };
        let limit = match rest {
            [] => DEFAULT_LIMIT,
            [word, limit] if word.eq_ignore_ascii_case(b"LIMIT") => {
                usize::try_from(value_of(limit)?).ok().filter(|limit| (1..=most).contains(limit)).ok_or(Refusal::Limit(most))?
            }
            _ => return Err(Refusal::Syntax),
        };
        Ok(Range { low: K::end_of(low)?, high: K::end_of(high)?, limit, is_down })
    }
}

impl<'a> Scan<'a> {
    fn of(cursor: &[u8], rest: &[&'a [u8]]) -> Result<Scan<'a>, Refusal> {
        let from = value_of(cursor).map_err(|_| Refusal::Told("ERR invalid cursor"))?;
        let mut scan = Scan { from, count: DEFAULT_COUNT, pattern: None, are_strings: true };
        for option in rest.chunks(2) {
            match (Name::of(option[0]).capitals(), option.get(1)) {
                (b"COUNT", Some(word)) => match usize::try_from(integer(word)?) {
                    Ok(count) if count > 0 => scan.count = count.min(MAX_LIMIT),
                    _ => return Err(Refusal::Syntax),
                },
                (b"MATCH", Some(word)) => scan.pattern = Some(word),
                (b"TYPE", Some(word)) => scan.are_strings = word.eq_ignore_ascii_case(b"string"),
                _ => return Err(Refusal::Syntax),
            }
        }
        Ok(scan)
    }
}

/// A `SET` of these words. Where no option is among them it is the plain one.
fn set<'a, K: Key<'a>>(key: &'a [u8], value: &[u8], options: &[&[u8]]) -> Result<Command<'a, K>, Refusal> {
    let (key, value) = (K::of(key)?, K::Value::of(value)?);
    match options {
        [] => Ok(Command::Set { key, value }),
        _ => Ok(Command::SetAs { key, value, options: Options::of_set(options)? }),
    }
}

/// A `SETEX` or `PSETEX`.
fn set_for<'a, K: Key<'a>>(key: &'a [u8], time: &[u8], value: &[u8], unit: Unit, name: &'static str) -> Result<Command<'a, K>, Refusal> {
    let (key, value) = (K::of(key)?, K::Value::of(value)?);
    let stay = Stay::Until(Time::After(unit).of_value(time, name)?);
    Ok(Command::SetAs { key, value, options: Options { stay, ..Options::default() } })
}

/// An `EXPIRE` or one of the three like it.
fn expire<'a, K: Key<'a>>(
    key: &'a [u8],
    time: &[u8],
    options: &[&[u8]],
    kind: Time,
    name: &'static str,
) -> Result<Command<'a, K>, Refusal> {
    let only = Only::of(options)?;
    Ok(Command::Expire { deadline: kind.of_key(time, name)?, key: K::of(key)?, only })
}

impl<'a, K: Key<'a>> Command<'a, K> {
    /// The command that a request is.
    ///
    /// # Errors
    /// Where it is none. Nothing was done then.
    pub fn of(request: &'a Request) -> Result<Command<'a, K>, Refusal> {
        let words = request.words();
        let (name, arguments) = words.split_first().ok_or(Refusal::Syntax)?;
        let name = Name::of(name);
        let upper = name.capitals();
        if let Some(command) = Command::with_keys(upper, arguments)? {
            return Ok(command);
        }
        Command::of_others(upper, arguments)?.ok_or_else(|| refused(&words, upper))
    }

    /// The commands that aren't asked for all the time.
    #[inline(never)]
    fn of_others(name: &[u8], arguments: &[&'a [u8]]) -> Result<Option<Command<'a, K>>, Refusal> {
        if let Some(command) = Command::with_deadlines(name, arguments)? {
            return Ok(Some(command));
        }
        if let Some(command) = Command::without_keys(name, arguments)? {
            return Ok(Some(command));
        }
        Ok(SessionCommand::of(name, arguments)?.map(Command::Session))
    }

    /// A command on pairs. The name is in capitals.
    fn with_keys(name: &[u8], arguments: &[&'a [u8]]) -> Result<Option<Command<'a, K>>, Refusal> {
        Ok(Some(match (name, arguments) {
            (b"GET", [key]) => Command::Get(K::of(key)?),
            (b"MGET", [_, ..]) => Command::GetMany(keys(arguments)?),
            (b"SET", [key, value, options @ ..]) => set(key, value, options)?,
            (b"MSET", _) => Command::SetMany(pairs(arguments)?),
            (b"SETNX", [key, value]) => Command::SetIfAbsent { key: K::of(key)?, value: Value::of(value)? },
            (b"GETSET", [key, value]) => Command::Exchange { key: K::of(key)?, value: Value::of(value)? },
            (b"INCR", [key]) => Command::Add { key: K::of(key)?, amount: 1 },
            (b"DECR", [key]) => Command::Add { key: K::of(key)?, amount: -1 },
            (b"INCRBY", [key, more]) => Command::Add { key: K::of(key)?, amount: amount(more)? },
            (b"DECRBY", [key, less]) => Command::Add { key: K::of(key)?, amount: negative(less)? },
            (b"DEL" | b"UNLINK", [_, ..]) => Command::Delete(keys(arguments)?),
            (b"GETDEL", [key]) => Command::Take(K::of(key)?),
            (b"EXISTS", [_, ..]) => Command::Exist(keys(arguments)?),
            (b"TYPE", [key]) => Command::Type(K::of(key)?),
            (b"RANGE", [low, high, rest @ ..]) => Command::Range(Range::of::<K>(low, high, rest, false)?),
            (b"REVRANGE", [high, low, rest @ ..]) => Command::Range(Range::of::<K>(low, high, rest, true)?),
            _ => return Ok(None),
        }))
    }

    /// A command on the deadline of a key.
    fn with_deadlines(name: &[u8], arguments: &[&'a [u8]]) -> Result<Option<Command<'a, K>>, Refusal> {
        use Unit::{Milliseconds, Seconds};
        let told = |key: &'a [u8], unit, is_from_now| Ok(Command::Deadline { key: K::of(key)?, unit, is_from_now });
        Ok(Some(match (name, arguments) {
            (b"EXPIRE", [key, time, rest @ ..]) => expire(key, time, rest, Time::After(Seconds), "expire")?,
            (b"PEXPIRE", [key, time, rest @ ..]) => expire(key, time, rest, Time::After(Milliseconds), "pexpire")?,
            (b"EXPIREAT", [key, time, rest @ ..]) => expire(key, time, rest, Time::At(Seconds), "expireat")?,
            (b"PEXPIREAT", [key, time, rest @ ..]) => expire(key, time, rest, Time::At(Milliseconds), "pexpireat")?,
            (b"TTL", [key]) => told(key, Seconds, true)?,
            (b"PTTL", [key]) => told(key, Milliseconds, true)?,
            (b"EXPIRETIME", [key]) => told(key, Seconds, false)?,
            (b"PEXPIRETIME", [key]) => told(key, Milliseconds, false)?,
            (b"PERSIST", [key]) => Command::Persist(K::of(key)?),
            (b"GETEX", [key, options @ ..]) => Command::GetAndExpire { key: K::of(key)?, stay: Stay::of_get(options)? },
            (b"SETEX", [key, time, value]) => set_for(key, time, value, Seconds, "setex")?,
            (b"PSETEX", [key, time, value]) => set_for(key, time, value, Milliseconds, "psetex")?,
            _ => return Ok(None),
        }))
    }

    /// A command on the index as a whole, or on the server.
    fn without_keys(name: &[u8], arguments: &[&'a [u8]]) -> Result<Option<Command<'a, K>>, Refusal> {
        Ok(Some(match (name, arguments) {
            (b"DBSIZE", []) => Command::Size,
            (b"FLUSHALL" | b"FLUSHDB", []) => Command::Clear,
            (b"FLUSHALL" | b"FLUSHDB", [how]) if matches!(Name::of(how).capitals(), b"ASYNC" | b"SYNC") => Command::Clear,
            (b"FLUSHALL" | b"FLUSHDB", [_, ..]) => return Err(Refusal::Syntax),
            (b"SCAN", [cursor, rest @ ..]) => Command::Scan(Scan::of(cursor, rest)?),
            (b"PING", []) => Command::Ping(None),
            (b"PING", [word]) => Command::Ping(Some(word)),
            (b"ECHO", [word]) => Command::Echo(word),
            (b"INFO", _) => Command::Info(arguments.to_vec()),
            (b"COMMAND", _) => Command::Commands,
            (b"CONFIG", [get, name]) if get.eq_ignore_ascii_case(b"GET") => Command::Setting(name),
            (b"CONFIG", [_, ..]) => return Err(Refusal::Syntax),
            (b"QUIT", _) => Command::Quit,
            (b"POST" | b"HOST:", _) => Command::Http,
            _ => return Ok(None),
        }))
    }
}

/// The names of commands that take a number of words of their own, but those about the connection.
const NAMES: &str = "GET MGET SET MSET SETNX GETSET INCR DECR INCRBY DECRBY DEL UNLINK GETDEL EXISTS TYPE RANGE REVRANGE EXPIRE PEXPIRE \
                     EXPIREAT PEXPIREAT TTL PTTL EXPIRETIME PEXPIRETIME PERSIST GETEX SETEX PSETEX DBSIZE SCAN PING ECHO CONFIG";

/// Why words are no command: there is none of this name, or it takes another number of words.
fn refused(words: &[&[u8]], upper: &[u8]) -> Refusal {
    if [NAMES, session_commands::NAMES].iter().any(|names| names.split(' ').any(|name| name.as_bytes() == upper)) {
        Refusal::Arguments { name: String::from_utf8_lossy(upper).to_ascii_lowercase() }
    } else {
        Refusal::Unknown { words: words.iter().take(5).map(|word| shown(word)).collect() }
    }
}
