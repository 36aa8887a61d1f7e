//! From commands to replies.

use crate::clock;
use crate::commands::{Command, Range, Scan};
use crate::deadlines::{Case, Only, Options, Stay, Unit};
use crate::entries::Content;
use crate::glob::matches;
use crate::keys::Key;
use crate::pairs::{Pairs, Scanned};
use crate::replies::{Replies, Tells};
use crate::store::{Step, Uncounted};
use citrus_map::Error;

/// Adds one reply, or where it fails none.
pub(crate) fn try_answer<'k, K: Key<'k>>(command: &Command<'k, K>, store: &impl Pairs<'k, K>, replies: &mut Replies) -> Result<(), Error> {
    match command {
        Command::Get(key) => replies.or_nil(store.get(*key)?),
        Command::GetMany(keys) => tell_many(store.get_many(keys)?, replies),
        Command::GetAndExpire { key, stay } => replies.or_nil(get_and_expire(*key, *stay, store)?),
        Command::Set { key, value } => {
            store.set(*key, Content::staying(value.clone()))?;
            replies.status("OK");
        }
        Command::SetAs { key, value, options } => set_as(*key, value, *options, store, replies)?,
        Command::SetMany(pairs) => {
            pairs.iter().try_for_each(|(key, value)| store.set(*key, Content::staying(value.clone())).map(|_| ()))?;
            replies.status("OK");
        }
        Command::SetIfAbsent { key, value } => replies.count(store.set_if_absent(*key, value.clone())?.into()),
        Command::Exchange { key, value } => replies.or_nil(store.set(*key, Content::staying(value.clone()))?),
        Command::Add { key, amount } => add(*key, *amount, store, replies)?,
        Command::Expire { key, deadline, only } => replies.count(expire(*key, *deadline, *only, store)?.into()),
        Command::Persist(key) => replies.count(persist(*key, store)?.into()),
        Command::Deadline { key, unit, is_from_now } => replies.signed(time_of(store.content(*key)?, *unit, *is_from_now)),
        Command::Delete(keys) => replies.count(how_many(keys, |key| Ok(store.remove(key)?.is_some()))?),
        Command::Take(key) => replies.or_nil(store.remove(*key)?),
        Command::Exist(keys) => replies.count(store.get_many(keys)?.into_iter().flatten().count() as u64),
        Command::Type(key) => replies.status(if store.get(*key)?.is_some() { "string" } else { "none" }),
        Command::Range(range) => tell(*range, store, replies)?,
        Command::Scan(scan) => tell_keys(*scan, store, replies)?,
        Command::Size => replies.count(store.facts().size),
        others => answer_without_store(others, replies),
    }
    Ok(())
}

/// Adds one reply to a command that asks for no pair.
fn answer_without_store<'k, K: Key<'k>>(command: &Command<'k, K>, replies: &mut Replies) {
    match command {
        Command::Ping(None) => replies.status("PONG"),
        Command::Ping(Some(word)) | Command::Echo(word) => replies.bulk(word),
        Command::Commands => replies.array(0),
        Command::Setting(name) => setting(name, replies),
        _ => {}
    }
}

fn tell_many(values: Vec<Option<impl Tells>>, replies: &mut Replies) {
    replies.array(values.len());
    values.into_iter().for_each(|value| replies.or_nil(value));
}

/// Where the value isn't put in that is told by a nil, in whose place the value before is told if that was asked for.
fn set_as<'k, K: Key<'k>>(
    key: K,
    value: &K::Value,
    options: Options,
    store: &impl Pairs<'k, K>,
    replies: &mut Replies,
) -> Result<(), Error> {
    let new = |deadline| Content { value: value.clone(), deadline };
    let (before, is_put) = match options {
        Options { case: Case::Any, stay: Stay::Until(deadline), .. } => (store.set(key, new(Some(deadline)))?, true),
        Options { case: Case::Any, stay: Stay::ForGood, .. } => (store.set(key, new(None))?, true),
        Options { case, stay, .. } => store.change(key, |found| match (case, found) {
            (Case::Absent, Some(before)) => (Step::Leave, (Some(before.value), false)),
            (Case::Present, None) => (Step::Leave, (None, false)),
            (_, Some(before)) => (Step::Put(new(stay.deadline(before.deadline))), (Some(before.value), true)),
            (_, None) => (Step::Put(new(stay.deadline(None))), (None, true)),
        })?,
    };
    match (options.tells_before, is_put) {
        (true, _) => replies.or_nil(before),
        (false, true) => replies.status("OK"),
        (false, false) => replies.nil(),
    }
    Ok(())
}

fn get_and_expire<'k, K: Key<'k>>(key: K, stay: Stay, store: &impl Pairs<'k, K>) -> Result<Option<K::Value>, Error> {
    store.change(key, |found| match found {
        None => (Step::Leave, None),
        Some(Content { value, deadline }) => {
            let after = stay.deadline(deadline);
            (if after == deadline { Step::Leave } else { Step::Put(Content { value: value.clone(), deadline: after }) }, Some(value))
        }
    })
}

/// Whether the key got the deadline, or was taken out since that is over.
fn expire<'k, K: Key<'k>>(key: K, deadline: u64, only: Only, store: &impl Pairs<'k, K>) -> Result<bool, Error> {
    store.change(key, |found| match found {
        Some(content) if only.allows(content.deadline, deadline) => {
            let is_over = deadline <= clock::now();
            let after = Content { deadline: Some(deadline), ..content };
            (if is_over { Step::Remove } else { Step::Put(after) }, true)
        }
        _ => (Step::Leave, false),
    })
}

/// Whether the key had a deadline, and has none from now on.
fn persist<'k, K: Key<'k>>(key: K, store: &impl Pairs<'k, K>) -> Result<bool, Error> {
    store.change(key, |found| match found {
        Some(Content { value, deadline: Some(_) }) => (Step::Put(Content::staying(value)), true),
        _ => (Step::Leave, false),
    })
}

/// When a key with this goes: -1 where it stays, and -2 where it isn't there. Seconds are rounded, as in Redis.
fn time_of<V>(content: Option<Content<V>>, unit: Unit, is_from_now: bool) -> i64 {
    let deadline = match content {
        None => return -2,
        Some(Content { deadline: None, .. }) => return -1,
        Some(Content { deadline: Some(deadline), .. }) => deadline,
    };
    let milliseconds = if is_from_now { deadline.saturating_sub(clock::now()) } else { deadline };
    let time = match unit {
        Unit::Milliseconds => milliseconds,
        Unit::Seconds => (milliseconds + 500) / 1_000,
    };
    i64::try_from(time).unwrap_or(i64::MAX)
}

fn how_many<K: Copy>(keys: &[K], mut is_so: impl FnMut(K) -> Result<bool, Error>) -> Result<u64, Error> {
    keys.iter().try_fold(0, |count, key| Ok(count + u64::from(is_so(*key)?)))
}

/// A number that can't be counted is told in Redis's words.
fn add<'k, K: Key<'k>>(key: K, amount: i64, store: &impl Pairs<'k, K>, replies: &mut Replies) -> Result<(), Error> {
    match store.add(key, amount) {
        Ok(sum) => replies.signed(sum),
        Err(Uncounted::TooLarge) => replies.error("ERR value is not an integer or out of range"),
        Err(Uncounted::Overflow) => replies.error("ERR increment or decrement would overflow"),
        Err(Uncounted::Index(error)) => return Err(error),
    }
    Ok(())
}

/// The key to go on from, and the pairs.
fn tell<'k, K: Key<'k>>(range: Range<K::End>, store: &impl Pairs<'k, K>, replies: &mut Replies) -> Result<(), Error> {
    let page = store.page(range)?;
    replies.array(2);
    replies.or_nil(page.next);
    replies.array(2 * page.pairs.len());
    for (key, value) in page.pairs {
        key.tell(replies);
        value.tell(replies);
    }
    Ok(())
}

/// The cursor to go on from, 0 where all was told, and the keys of this part that are asked for.
fn tell_keys<'k, K: Key<'k>>(scan: Scan, store: &impl Pairs<'k, K>, replies: &mut Replies) -> Result<(), Error> {
    let Scanned { mut keys, next } = match store.scan(scan.from, scan.count, scan.pattern)? {
        Some(told) => told,
        None => {
            replies.error("ERR invalid cursor");
            return Ok(());
        }
    };
    keys.retain(|key| scan.are_strings && scan.pattern.map_or(true, |pattern| matches(pattern, key)));
    replies.array(2);
    replies.number(next);
    replies.array(keys.len());
    keys.iter().for_each(|key| replies.bulk(key));
    Ok(())
}

/// The settings for which `redis-benchmark` asks: nothing is saved.
fn setting(name: &[u8], replies: &mut Replies) {
    let value: &[u8] = match name.to_ascii_lowercase().as_slice() {
        b"save" => b"",
        b"appendonly" => b"no",
        _ => return replies.map(0),
    };
    replies.map(1);
    replies.bulk(name);
    replies.bulk(value);
}

#[cfg(test)]
mod tests {
    use super::*;
    use crate::census::Census;
    use crate::pairs::{Keeper, Outcome};
    use crate::parser::Parser;
    use crate::session::Session;
    use crate::store::Store;
    use crate::strings::StringStore;
    use citrus_map::Index;

    /// What the server says to a line.
    fn told(store: &impl Keeper, line: &str) -> String {
        let mut parser = Parser::default();
        parser.feed(line.as_bytes());
        parser.feed(b"\n");
        let request = parser.request().expect("the tests have good lines alone").expect("a line is a request");
        let mut replies = Replies::default();
        let outcome = store.do_request(request, &mut Session::new(1), &Census::new(1, 0, 10), &mut replies);
        if let Outcome::Clearing(clearing) = outcome {
            let mut rest = Some(clearing);
            while let Some(clearing) = rest {
                rest = clearing.go_on(store, &mut replies);
            }
        }
        String::from_utf8_lossy(replies.unsent()).replace("\r\n", " ")
    }

    fn new_store(pairs: u32, lanes: u32) -> Store {
        let index = Index::builder(pairs, 1).lanes(lanes).build().expect("there is memory");
        Store::all(&index).expect("an empty index is counted").remove(0)
    }

    fn new_strings(pairs: u32) -> StringStore {
        StringStore::all(Index::builder(pairs, 1)).expect("there is memory").remove(0)
    }

    /// What is answered the same whether keys are numbers or any bytes.
    fn check(pairs: u32, session: &[(&str, &str)]) {
        check_numbers(pairs, session);
        check_at(&new_strings(pairs), session);
    }

    fn check_numbers(pairs: u32, session: &[(&str, &str)]) {
        check_at(&new_store(pairs, 1), session);
    }

    fn check_at(store: &impl Keeper, session: &[(&str, &str)]) {
        for (line, reply) in session {
            assert_eq!(told(store, line).trim_end(), *reply, "{line}");
        }
    }

    #[test]
    fn keys_get_values_and_lose_them() {
        check(
            100,
            &[
                ("GET 5", "$-1"),
                ("SET 5 50", "+OK"),
                ("get 5", "$2 50"),
                ("SET 5 51", "+OK"),
                ("GET 5", "$2 51"),
                ("SETNX 5 52", ":0"),
                ("SETNX 18446744073709551615 0", ":1"),
                ("EXISTS 5 6 5 18446744073709551615", ":3"),
                ("DEL 5 5 6", ":1"),
                ("GET 5", "$-1"),
            ],
        );
    }

    #[test]
    fn many_keys_go_in_one_request() {
        check(
            100,
            &[
                ("MSET 1 10 2 20 1 11", "+OK"),
                ("MGET 1 3 2 1", "*4 $2 11 $-1 $2 20 $2 11"),
                ("GETSET 1 12", "$2 11"),
                ("GETSET 3 30", "$-1"),
                ("GETDEL 3", "$2 30"),
                ("GETDEL 3", "$-1"),
                ("DBSIZE", ":2"),
                ("mget 1", "*1 $2 12"),
            ],
        );
    }

    #[test]
    fn a_set_may_be_for_absent_or_present_keys_and_tell_the_value_before() {
        check(
            100,
            &[
                ("SET 5 50 XX", "$-1"),
                ("SET 5 50 NX", "+OK"),
                ("SET 5 51 NX", "$-1"),
                ("SET 5 51 NX GET", "$2 50"),
                ("set 5 52 xx get", "$2 50"),
                ("SET 6 60 NX GET", "$-1"),
                ("SET 7 70 XX GET", "$-1"),
                ("SET 5 53 GET", "$2 52"),
                ("MGET 5 6 7", "*3 $2 53 $2 60 $-1"),
                ("TYPE 5", "+string"),
                ("TYPE 7", "+none"),
                ("UNLINK 5 6 7", ":2"),
                ("DBSIZE", ":0"),
            ],
        );
    }

    #[test]
    fn keys_go_at_their_deadline_and_not_where_they_lost_it() {
        keys_go_at_their_deadline_in(&new_store(100, 1));
        keys_go_at_their_deadline_in(&new_strings(100));
    }

    fn keys_go_at_their_deadline_in(store: &impl Keeper) {
        check_at(
            store,
            &[
                ("SET 1 10 EXAT 99999999999", "+OK"),
                ("EXPIRETIME 1", ":99999999999"),
                ("SET 1 11 KEEPTTL", "+OK"),
                ("INCR 1", ":12"),
                ("EXPIRETIME 1", ":99999999999"),
                ("PERSIST 1", ":1"),
                ("PERSIST 1", ":0"),
                ("TTL 1", ":-1"),
                ("PTTL 2", ":-2"),
                ("EXPIRE 2 100", ":0"),
                ("EXPIRE 1 100 XX", ":0"),
                ("EXPIRE 1 100 NX", ":1"),
                ("EXPIREAT 1 99999999999 GT", ":1"),
                ("EXPIRETIME 1", ":99999999999"),
                ("PEXPIRETIME 1", ":99999999999000"),
                ("PEXPIREAT 1 99999999999499", ":1"),
                ("EXPIRETIME 1", ":99999999999"),
                ("PEXPIREAT 1 99999999999500", ":1"),
                ("EXPIRETIME 1", ":100000000000"),
                ("GETEX 1 PERSIST", "$2 12"),
                ("EXPIRETIME 1", ":-1"),
                ("GETEX 1 PXAT 99999999999000", "$2 12"),
                ("GETEX 1", "$2 12"),
                ("EXPIRETIME 1", ":99999999999"),
                ("GETEX 2 EX 5", "$-1"),
                ("SET 1 13", "+OK"),
                ("TTL 1", ":-1"),
                ("EXPIRE 1 -1", ":1"),
                ("GET 1", "$-1"),
                ("SETEX 3 100 30", "+OK"),
                ("PSETEX 4 100000 40", "+OK"),
                ("RANGE - +", "*2 $-1 *4 $1 3 $2 30 $1 4 $2 40"),
                ("REVRANGE + -", "*2 $-1 *4 $1 4 $2 40 $1 3 $2 30"),
                ("FLUSHDB ASYNC", "+OK"),
                ("DBSIZE", ":0"),
            ],
        );
        assert_eq!((store.facts().size, store.facts().deadlines), (0, (0, 0)));
    }

    #[test]
    fn the_time_that_is_left_is_told() {
        the_time_that_is_left_in(&new_store(100, 1));
        the_time_that_is_left_in(&new_strings(100));
    }

    fn the_time_that_is_left_in(store: &impl Keeper) {
        for line in ["SET 1 10 EX 100", "SET 1 10 PX 100000", "SETEX 1 100 10", "PSETEX 1 100000 10", "EXPIRE 1 100", "PEXPIRE 1 100000"] {
            assert!(["+OK", ":1"].contains(&told(store, line).trim_end()), "{line}");
            let left = |line| told(store, line).trim_end().trim_start_matches(':').parse::<u64>().expect("it is a number");
            assert!((50..=100).contains(&left("TTL 1")), "{line}");
            assert!((50_000..=100_000).contains(&left("PTTL 1")), "{line}");
        }
    }

    /// Each command that reads or changes a key whose deadline is over takes it for absent.
    #[test]
    fn a_key_whose_deadline_is_over_is_absent() {
        let lines = [
            ("GET 5", "$-1"),
            ("MGET 5 5", "*2 $-1 $-1"),
            ("EXISTS 5 5", ":0"),
            ("SETNX 5 51", ":1"),
            ("SET 5 51 NX", "+OK"),
            ("SET 5 51 XX", "$-1"),
            ("SET 5 51 GET", "$-1"),
            ("SET 5 51 KEEPTTL", "+OK"),
            ("GETSET 5 51", "$-1"),
            ("INCR 5", ":1"),
            ("DEL 5", ":0"),
            ("GETDEL 5", "$-1"),
            ("TTL 5", ":-2"),
            ("PERSIST 5", ":0"),
            ("EXPIRE 5 10", ":0"),
            ("GETEX 5", "$-1"),
            ("TYPE 5", "+none"),
            ("RANGE - +", "*2 $-1 *0"),
            ("REVRANGE + -", "*2 $-1 *0"),
            ("SCAN 0", "*2 $1 0 *0"),
        ];
        for (line, reply) in lines {
            behind_a_deadline(&new_store(100, 1), line, reply);
            behind_a_deadline(&new_strings(100), line, reply);
        }
    }

    fn behind_a_deadline(store: &impl Keeper, line: &str, reply: &str) {
        check_at(store, &[("SET 5 50 PXAT 1", "+OK"), (line, reply)]);
        let is_there = told(store, "GET 5").trim_end() != "$-1";
        let (time, deleted) = if is_there { (":-1", ":1") } else { (":-2", ":0") };
        check_at(store, &[("TTL 5", time), ("DEL 5", deleted), ("DBSIZE", ":0")]);
        assert_eq!(store.facts().deadlines.0, 0, "{line}");
    }

    #[test]
    fn keys_are_told_by_a_cursor() {
        check_numbers(
            100,
            &[
                ("SCAN 0", "*2 $1 0 *0"),
                ("MSET 1 1 12 1 123 1 2 1", "+OK"),
                ("SCAN 0 COUNT 3", "*2 $3 123 *3 $1 1 $1 2 $2 12"),
                ("SCAN 123 COUNT 3", "*2 $1 0 *1 $3 123"),
                ("SCAN 0 MATCH 1* COUNT 100 TYPE string", "*2 $1 0 *3 $1 1 $2 12 $3 123"),
                ("SCAN 0 MATCH ?2", "*2 $1 0 *1 $2 12"),
                ("SCAN 0 TYPE list", "*2 $1 0 *0"),
            ],
        );
    }

    #[test]
    fn values_as_great_as_names_are_values() {
        check_numbers(
            100,
            &[
                ("SET 5 18446744073709551615", "+OK"),
                ("SETNX 6 18374686479671623680", ":1"),
                ("MGET 5 6", "*2 $20 18446744073709551615 $20 18374686479671623680"),
                ("EXPIRE 5 100", ":1"),
                ("GETSET 5 18446744073709551614", "$20 18446744073709551615"),
                ("TTL 5", ":-1"),
                ("RANGE - +", "*2 $-1 *4 $1 5 $20 18446744073709551614 $1 6 $20 18374686479671623680"),
                ("INCR 5", "-ERR value is not an integer or out of range"),
                ("GETDEL 5", "$20 18446744073709551614"),
            ],
        );
    }

    #[test]
    fn counters_stay_from_0_to_the_greatest_integer_of_the_protocol() {
        const OVERFLOW: &str = "-ERR increment or decrement would overflow";
        const NO_INTEGER: &str = "-ERR value is not an integer or out of range";
        check_numbers(
            100,
            &[
                ("INCR 1", ":1"),
                ("INCRBY 1 41", ":42"),
                ("GET 1", "$2 42"),
                ("DECRBY 1 40", ":2"),
                ("DECR 1", ":1"),
                ("INCRBY 1 -1", ":0"),
                ("DECR 1", OVERFLOW),
                ("DECR 2", OVERFLOW),
                ("EXISTS 2", ":0"),
                ("DECRBY 2 -9223372036854775807", ":9223372036854775807"),
                ("INCR 2", OVERFLOW),
                ("INCRBY 1 9223372036854775808", NO_INTEGER),
                ("INCRBY 1 -9223372036854775808", OVERFLOW),
                ("DECRBY 1 -9223372036854775808", "-ERR decrement would overflow"),
                ("SET 3 9223372036854775808", "+OK"),
                ("DECR 3", NO_INTEGER),
                ("GET 3", "$19 9223372036854775808"),
                ("MGET 1 2", "*2 $1 0 $19 9223372036854775807"),
            ],
        );
    }

    #[test]
    fn all_pairs_can_be_taken_out() {
        all_pairs_can_be_taken_out_of(&new_store(2_000, 1));
        all_pairs_can_be_taken_out_of(&new_strings(4_000));
    }

    fn all_pairs_can_be_taken_out_of(store: &impl Keeper) {
        for key in 0..2_000u64 {
            assert_eq!(told(store, &format!("SET {} {key}", key.reverse_bits())).trim_end(), "+OK");
        }
        check_at(store, &[("DBSIZE", ":2000"), ("FLUSHALL", "+OK"), ("DBSIZE", ":0"), ("RANGE - +", "*2 $-1 *0"), ("flushall", "+OK")]);
    }

    #[test]
    fn ranges_go_down_too() {
        check_numbers(
            100,
            &[
                ("REVRANGE + -", "*2 $-1 *0"),
                ("MSET 0 5 1 10 2 20 18446744073709551615 40", "+OK"),
                ("REVRANGE + -", "*2 $-1 *8 $20 18446744073709551615 $2 40 $1 2 $2 20 $1 1 $2 10 $1 0 $1 5"),
                ("REVRANGE 2 1", "*2 $-1 *4 $1 2 $2 20 $1 1 $2 10"),
                ("revrange + - limit 2", "*2 $1 1 *4 $20 18446744073709551615 $2 40 $1 2 $2 20"),
                ("REVRANGE 1 1 LIMIT 1", "*2 $-1 *2 $1 1 $2 10"),
                ("REVRANGE 1 2", "*2 $-1 *0"),
                ("REVRANGE 2 1 LIMIT 8193", "-ERR LIMIT is out of range, must be from 1 to 8192"),
                ("REVRANGE 2", "-ERR wrong number of arguments for 'revrange' command"),
            ],
        );
    }

    #[test]
    fn ranges_come_in_pages() {
        check_numbers(
            100,
            &[
                ("RANGE - +", "*2 $-1 *0"),
                ("SET 1 10", "+OK"),
                ("SET 2 20", "+OK"),
                ("SET 3 30", "+OK"),
                ("RANGE 1 2", "*2 $-1 *4 $1 1 $2 10 $1 2 $2 20"),
                ("RANGE - + LIMIT 1", "*2 $1 2 *2 $1 1 $2 10"),
                ("range 3 + limit 1", "*2 $-1 *2 $1 3 $2 30"),
                ("RANGE 3 1", "*2 $-1 *0"),
                ("SET 18446744073709551615 40", "+OK"),
                ("RANGE 4 +", "*2 $-1 *2 $20 18446744073709551615 $2 40"),
                ("RANGE 1 2 LIMIT 0", "-ERR LIMIT is out of range, must be from 1 to 65536"),
                ("RANGE 1 2 LIMIT 65537", "-ERR LIMIT is out of range, must be from 1 to 65536"),
                ("RANGE 1 2 COUNT 1", "-ERR syntax error"),
                ("RANGE 1 2 LIMIT", "-ERR syntax error"),
                ("RANGE 1", "-ERR wrong number of arguments for 'range' command"),
            ],
        );
    }

    /// Each command that takes keys, with a key that isn't one in the place of each of its keys.
    fn with_bad_key(key: &str) -> Vec<String> {
        let alone = ["GET", "MGET", "INCR", "DECR", "DEL", "GETDEL", "EXISTS"].map(|name| format!("{name} {key}"));
        let first = ["SET", "MSET", "SETNX", "GETSET", "INCRBY", "DECRBY"].map(|name| format!("{name} {key} 1"));
        let last = ["MGET 5", "DEL 5", "EXISTS 5", "RANGE 0", "REVRANGE 9"].map(|begin| format!("{begin} {key}"));
        let between = [format!("MSET 5 1 {key} 1"), format!("RANGE {key} 9"), format!("REVRANGE {key} 0")];
        alone.into_iter().chain(first).chain(last).chain(between).collect()
    }

    #[test]
    fn a_key_has_one_spelling() {
        const ZEROS: &str = "-ERR key is not in its one spelling, which has no zeros before its digits";
        const NO_KEY: &str = "-ERR key is not an integer or out of range";
        let store = new_store(100, 1);
        check_at(&store, &[("SET 5 50", "+OK"), ("SET 0 10", "+OK")]);
        let zeros = ["05", "00", "000000000005", "00000000000000000000000005"].map(|key| (key, ZEROS));
        let others =
            ["+5", "-5", "-0", "5.0", "0x5", "\" 5\"", "\"5 \"", "\"\"", "x", "key:5", "18446744073709551616"].map(|key| (key, NO_KEY));
        for (key, error) in zeros.into_iter().chain(others) {
            for line in with_bad_key(key) {
                check_at(&store, &[(&line, error)]);
            }
        }
        check_at(&store, &[("RANGE - +", "*2 $-1 *4 $1 0 $2 10 $1 5 $2 50"), ("DBSIZE", ":2")]);
    }

    #[test]
    fn a_value_comes_back_as_it_was_sent() {
        const ZEROS: &str = "-ERR value is not in its one spelling, which has no zeros before its digits";
        check_numbers(
            100,
            &[
                ("SET 5 0", "+OK"),
                ("GET 5", "$1 0"),
                ("SET 5 00", ZEROS),
                ("SET 5 007", ZEROS),
                ("SETNX 6 007", ZEROS),
                ("GETSET 5 007", ZEROS),
                ("MSET 5 1 6 007", ZEROS),
                ("INCRBY 5 007", ZEROS),
                ("INCRBY 5 -0", ZEROS),
                ("DECRBY 5 -01", ZEROS),
                ("RANGE 0 9 LIMIT 01", ZEROS),
                ("INCRBY 5 0", ":0"),
                ("MGET 5 6", "*2 $1 0 $-1"),
            ],
        );
    }

    #[test]
    fn bad_requests_change_nothing() {
        const NO_KEY: &str = "-ERR key is not an integer or out of range";
        const NO_NUMBER: &str = "-ERR value is not an integer or out of range";
        check_numbers(
            100,
            &[
                ("SET 5 50", "+OK"),
                ("DEL 5 x", NO_KEY),
                ("GET 5", "$2 50"),
                ("SET 5 18446744073709551616", NO_NUMBER),
                ("SET 5 +6", NO_NUMBER),
                ("SET key:000000000001 1", NO_KEY),
                ("SET 5 60 EX 0", "-ERR invalid expire time in 'set' command"),
                ("SET 5 60 EX", "-ERR syntax error"),
                ("SET 5 60 NX XX", "-ERR syntax error"),
                ("SET 5 60 EX 10 PX 10", "-ERR syntax error"),
                ("SET 5 60 KEEPTTL EX 10", "-ERR syntax error"),
                ("SET 5 60 FOO", "-ERR syntax error"),
                ("SET 5 60 EX 01", NO_NUMBER),
                ("SET 5 60 PX 9223372036854775807", "-ERR invalid expire time in 'set' command"),
                ("SETEX 5 0 60", "-ERR invalid expire time in 'setex' command"),
                ("PSETEX 5 -1 60", "-ERR invalid expire time in 'psetex' command"),
                ("GETEX 5 EX 10 PERSIST", "-ERR syntax error"),
                ("EXPIRE 5 x", NO_NUMBER),
                ("EXPIRE 5 10 NX XX", "-ERR NX and XX, GT or LT options at the same time are not compatible"),
                ("EXPIRE 5 10 GT LT", "-ERR GT and LT options at the same time are not compatible"),
                ("EXPIRE 5 10 FOO", "-ERR Unsupported option FOO"),
                ("EXPIRE 5 9223372036854775807", "-ERR invalid expire time in 'expire' command"),
                ("PEXPIRE 5 9223372036854775807", "-ERR invalid expire time in 'pexpire' command"),
                ("EXPIRE 5", "-ERR wrong number of arguments for 'expire' command"),
                ("TTL", "-ERR wrong number of arguments for 'ttl' command"),
                ("TTL 5", ":-1"),
                ("SCAN x", "-ERR invalid cursor"),
                ("SCAN 0 COUNT 0", "-ERR syntax error"),
                ("SCAN 0 COUNT", "-ERR syntax error"),
                ("FLUSHDB X", "-ERR syntax error"),
                ("SET 5", "-ERR wrong number of arguments for 'set' command"),
                ("Get", "-ERR wrong number of arguments for 'get' command"),
                ("GET 5 6", "-ERR wrong number of arguments for 'get' command"),
                ("FLUSHING \"a\\nb\" 5", "-ERR unknown command 'FLUSHING', with args beginning with: 'a b' '5'"),
                ("FLUSHALL NOW", "-ERR syntax error"),
                ("MSET 5 60 6", "-ERR wrong number of arguments for 'mset' command"),
                ("MSET", "-ERR wrong number of arguments for 'mset' command"),
                ("MSET 5 60 6 x", NO_NUMBER),
                ("MGET 5 x", NO_KEY),
                ("MGET", "-ERR wrong number of arguments for 'mget' command"),
                ("INCR", "-ERR wrong number of arguments for 'incr' command"),
                ("INCRBY 5 1.5", NO_NUMBER),
                ("INCRBY 5 +1", NO_NUMBER),
                ("DBSIZE 5", "-ERR wrong number of arguments for 'dbsize' command"),
                ("getgetget", "-ERR unknown command 'getgetget', with args beginning with:"),
                ("GET 5", "$2 50"),
            ],
        );
    }

    #[test]
    fn a_full_index_has_an_error_of_its_own() {
        let store = new_store(2, 0);
        // Beside those for its pairs it has 68 slots for what its handle may keep back.
        for key in 100..100 + 68 {
            assert_eq!(told(&store, &format!("SET {key} 0")).trim_end(), "+OK");
        }
        check_at(
            &store,
            &[
                ("SET 1 1", "+OK"),
                ("SET 2 2", "+OK"),
                ("SET 3 3", "-FULL the index is full"),
                ("SETNX 3 3", "-FULL the index is full"),
                ("SET 2 4", "+OK"),
                ("SETNX 2 5", ":0"),
                ("GET 2", "$1 4"),
            ],
        );
    }

    #[test]
    fn tools_are_answered_when_they_start() {
        check(
            1,
            &[
                ("PING", "+PONG"),
                ("PING \"a b\"", "$3 a b"),
                ("ECHO hello", "$5 hello"),
                ("COMMAND", "*0"),
                ("COMMAND DOCS", "*0"),
                ("CONFIG GET save", "*2 $4 save $0"),
                ("CONFIG GET appendonly", "*2 $10 appendonly $2 no"),
                ("CONFIG GET port", "*0"),
                ("CONFIG SET save 1", "-ERR syntax error"),
                ("QUIT", "+OK"),
            ],
        );
    }

    #[test]
    fn lines_of_http_are_told_from_commands() {
        check(
            10,
            &[
                ("POST / HTTP/1.1", ""),
                ("Host: localhost", ""),
                ("hOsT:", ""),
                ("HOST", "-ERR unknown command 'HOST', with args beginning with:"),
            ],
        );
    }

    #[test]
    fn keys_and_values_may_be_any_bytes() {
        const ZEROS: &str = "$7 a\0b\u{1}\r c";
        check_at(
            &new_strings(100),
            &[
                (r#"SET "a b" "\x00\"""#, "+OK"),
                (r#"GET "a b""#, "$2 \0\""),
                (r#"SET "" """#, "+OK"),
                (r#"GET """#, "$0"),
                (r#"SET user:7 "a\x00b\x01\r c""#, "+OK"),
                ("GET user:7", ZEROS),
                ("GET user:07", "$-1"),
                ("MSET 05 1 5 2", "+OK"),
                ("MGET 05 5 005", "*3 $1 1 $1 2 $-1"),
                ("EXISTS user:7 \"\" \"a b\" a", ":3"),
                ("GETSET user:7 070", "$7 a\0b\u{1}\r c"),
                ("GETDEL user:7", "$3 070"),
                ("DBSIZE", ":4"),
            ],
        );
    }

    #[test]
    fn integers_among_strings_are_counted_as_in_redis() {
        const OVERFLOW: &str = "-ERR increment or decrement would overflow";
        const NO_INTEGER: &str = "-ERR value is not an integer or out of range";
        check_at(
            &new_strings(100),
            &[
                ("DECR n", ":-1"),
                ("DECRBY n 9", ":-10"),
                ("GET n", "$3 -10"),
                ("INCRBY n 9223372036854775807", ":9223372036854775797"),
                ("INCRBY n 11", OVERFLOW),
                ("SET n -9223372036854775808 EXAT 99999999999", "+OK"),
                ("DECR n", OVERFLOW),
                ("INCR n", ":-9223372036854775807"),
                ("EXPIRETIME n", ":99999999999"),
                ("SET n 007", "+OK"),
                ("INCR n", NO_INTEGER),
                ("SET n seven", "+OK"),
                ("INCR n", NO_INTEGER),
                ("GET n", "$5 seven"),
            ],
        );
    }

    #[test]
    fn strings_are_listed_in_their_order() {
        const BAD_END: &str = "-ERR min or max not valid string range item";
        check_at(
            &new_strings(100),
            &[
                ("RANGE - +", "*2 $-1 *0"),
                ("MSET b 2 user:8 8 user:7 7 a 1 users 9", "+OK"),
                ("RANGE - + LIMIT 2", "*2 $6 user:7 *4 $1 a $1 1 $1 b $1 2"),
                ("RANGE [user:7 + LIMIT 1", "*2 $6 user:8 *2 $6 user:7 $1 7"),
                ("RANGE (user:7 (users", "*2 $-1 *2 $6 user:8 $1 8"),
                ("REVRANGE + - LIMIT 2", "*2 $6 user:7 *4 $5 users $1 9 $6 user:8 $1 8"),
                ("REVRANGE [b -", "*2 $-1 *4 $1 b $1 2 $1 a $1 1"),
                ("RANGE + -", "*2 $-1 *0"),
                ("RANGE [b [a", "*2 $-1 *0"),
                ("RANGE a +", BAD_END),
                ("RANGE - \"\"", BAD_END),
                ("SCAN 0 COUNT 2", "*2 $1 1 *2 $1 a $1 b"),
                ("SCAN 1 COUNT 2", "*2 $1 2 *2 $6 user:7 $6 user:8"),
                ("SCAN 2 COUNT 2", "*2 $1 0 *1 $5 users"),
                ("SCAN 1 COUNT 2", "*2 $1 3 *2 $6 user:7 $6 user:8"),
                ("SCAN 99", "-ERR invalid cursor"),
                ("SCAN 0 MATCH user:* COUNT 2", "*2 $1 4 *2 $6 user:7 $6 user:8"),
                ("SCAN 4 MATCH user:*", "*2 $1 0 *0"),
                ("SCAN 0 MATCH ?", "*2 $1 0 *2 $1 a $1 b"),
                ("SCAN 0 MATCH user:7", "*2 $1 0 *1 $6 user:7"),
                ("SCAN 0 TYPE list", "*2 $1 0 *0"),
            ],
        );
    }

    #[test]
    fn a_full_map_of_strings_refuses_new_keys_alone() {
        let store = new_strings(2);
        let refused = (0..1_000).find(|key| told(&store, &format!("SET {key} 0")).trim_end() == "-FULL the index is full");
        let refused = refused.expect("it is full at some time");
        check_at(
            &store,
            &[("DBSIZE", &format!(":{refused}")), ("SET 1 1", "+OK"), ("GET 1", "$1 1"), ("SETNX new 1", "-FULL the index is full")],
        );
    }
}
