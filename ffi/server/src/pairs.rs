//! What a worker does with the pairs that it serves, whatever their keys and values are.

use crate::census::Census;
use crate::commands::Range;
use crate::entries::Content;
use crate::keys::{Key, Value};
use crate::parser::Request;
use crate::replies::{Replies, Tells};
use crate::session::Session;
use crate::store::{Step, Uncounted};
use citrus_map::{Error, Stats};

/// Pairs in the order of their keys, and the key behind them.
#[derive(Clone, Debug, PartialEq, Eq)]
pub(crate) struct Page<K, V> {
    pub(crate) pairs: Vec<(K, V)>,
    pub(crate) next: Option<K>,
}

/// Keys as clients write them, and the cursor to go on from, or 0.
pub(crate) struct Scanned {
    pub(crate) keys: Vec<Vec<u8>>,
    pub(crate) next: u64,
}

/// What a worker knows of its pairs.
pub(crate) struct Facts {
    /// Its number.
    pub(crate) worker: usize,
    /// What its handle of the index knows.
    pub(crate) stats: Stats,
    /// How many keys there are.
    pub(crate) size: u64,
    /// How many have a deadline, and how many were taken out since theirs was over.
    pub(crate) deadlines: (u64, u64),
}

/// What a request came to.
pub(crate) enum Outcome<P> {
    /// Its one reply was added.
    Replied,
    /// A `FLUSHALL` begins.
    Clearing(Clearing<P>),
    /// The connection is to end, when the client has its replies.
    Farewell,
    /// The connection is to end at once.
    Http,
}

/// A `FLUSHALL` that isn't through. It goes in pieces, so that the worker's other connections have their turns.
#[derive(Debug)]
pub(crate) struct Clearing<P> {
    /// The pairs below this key have been taken out.
    pub(crate) from: P,
}

/// What a worker serves its connections from.
pub(crate) trait Keeper {
    /// Where a `FLUSHALL` goes on.
    type Place: Default;

    /// The number of its worker: no other one has the same.
    fn worker(&self) -> usize;

    fn facts(&self) -> Facts;

    /// Takes out the first pairs from a place on, and tells the place to go on from where some may be left.
    ///
    /// # Errors
    /// Where the index has no answer, as at each call below.
    fn clear_some(&self, from: Self::Place) -> Result<Option<Self::Place>, Error>;

    /// Whether there may be keys with a deadline, so that [`expire_some`](Keeper::expire_some) is to be called now and then.
    fn may_expire(&self) -> bool;

    /// Takes some of the keys out whose deadline is over, and says whether there are probably more.
    fn expire_some(&self) -> Result<bool, Error>;

    /// Does what a request says, and adds its reply.
    fn do_request(&self, request: &Request, session: &mut Session, census: &Census, replies: &mut Replies) -> Outcome<Self::Place>;
}

/// Pairs with keys of this type. A key whose deadline is over counts as absent.
pub(crate) trait Pairs<'k, K: Key<'k>>: Keeper {
    /// A key that is listed.
    type Listed: Tells;

    /// The key's value.
    fn get(&self, key: K) -> Result<Option<K::Value>, Error>;

    /// The value of each key, at its index.
    fn get_many(&self, keys: &[K]) -> Result<Vec<Option<K::Value>>, Error> {
        keys.iter().map(|key| self.get(*key)).collect()
    }

    /// What the key has.
    fn content(&self, key: K) -> Result<Option<Content<K::Value>>, Error>;

    /// Gives the key this, and tells the value before.
    fn set(&self, key: K, content: Content<K::Value>) -> Result<Option<K::Value>, Error>;

    /// Gives the key this value where it is absent, and says whether it was.
    fn set_if_absent(&self, key: K, value: K::Value) -> Result<bool, Error> {
        self.change(key, |found| match found {
            None => (Step::Put(Content::staying(value.clone())), true),
            Some(_) => (Step::Leave, false),
        })
    }

    /// Takes the pair out, and tells its value.
    fn remove(&self, key: K) -> Result<Option<K::Value>, Error>;

    /// Does with the key what `change` says to what it has, and tells the answer beside that. It is one update: where another worker gives the key
    /// something else meanwhile, `change` is asked once more, with that.
    fn change<A>(&self, key: K, change: impl FnMut(Option<Content<K::Value>>) -> (Step<K::Value>, A)) -> Result<A, Error>;

    /// Adds so much to the key's value, from 0 where it is absent, and tells the sum. It is one update, and the key's deadline stays.
    ///
    /// # Errors
    /// As [`Value::sum`].
    fn add(&self, key: K, amount: i64) -> Result<i64, Uncounted> {
        self.change(key, |found| match K::Value::sum(found.as_ref().map(|content| &content.value), amount) {
            Ok((value, sum)) => (Step::Put(Content { value, deadline: found.and_then(|content| content.deadline) }), Ok(sum)),
            Err(cause) => (Step::Leave, Err(cause)),
        })?
    }

    /// The first pairs of the range, or the last ones, and the key behind them.
    fn page(&self, range: Range<K::End>) -> Result<Page<Self::Listed, K::Value>, Error>;

    /// Looks at this many keys from a cursor on, and tells them. It may leave out those that aren't as the pattern says. None where the cursor isn't
    /// known.
    fn scan(&self, cursor: u64, count: usize, pattern: Option<&[u8]>) -> Result<Option<Scanned>, Error>;
}
