//! From requests to replies.

use crate::answers::try_answer;
use crate::census::Census;
use crate::commands::Command;
use crate::info;
use crate::keys::Key;
use crate::pairs::{Clearing, Keeper, Outcome, Pairs};
use crate::parser::Request;
use crate::replies::Replies;
use crate::session::Session;
use citrus_map::Error;

impl<P> Clearing<P> {
    /// Takes out some more pairs. Where none are left it adds the reply, and else it tells what to go on with.
    pub(crate) fn go_on(self, store: &impl Keeper<Place = P>, replies: &mut Replies) -> Option<Clearing<P>> {
        match store.clear_some(self.from) {
            Ok(Some(from)) => return Some(Clearing { from }),
            Ok(None) => replies.status("OK"),
            Err(error) => replies.error(&words_of(error)),
        }
        None
    }
}

/// Does what a request says, and adds its one reply; or, where it takes longer, tells what to go on with, which adds the reply at its end.
pub(crate) fn do_request<'r, K: Key<'r>, S: Pairs<'r, K>>(
    request: &'r Request,
    store: &S,
    session: &mut Session,
    census: &Census,
    replies: &mut Replies,
) -> Outcome<S::Place> {
    match Command::<K>::of(request) {
        Ok(Command::Http) => return Outcome::Http,
        Ok(Command::Quit) => {
            replies.status("OK");
            return Outcome::Farewell;
        }
        Ok(Command::Session(command)) => session.answer(&command, replies),
        Ok(_) if session.is_in_transaction() => replies.status("QUEUED"),
        Ok(Command::Info(names)) => info::tell(&names, &store.facts(), census, replies),
        Ok(Command::Clear) => return Outcome::Clearing(Clearing { from: S::Place::default() }),
        Ok(command) => {
            if let Err(error) = try_answer(&command, store, replies) {
                replies.error(&words_of(error));
            }
        }
        Err(refusal) => replies.error(&refusal.to_string()),
    }
    Outcome::Replied
}

/// What the index says where it has no answer, as clients tell errors apart.
fn words_of(error: Error) -> String {
    let kind = match error {
        Error::Full => "FULL",
        Error::Moved => "TRYAGAIN",
        Error::NoMemory => "OOM",
        Error::Spent => "SPENT",
        Error::Lost => "LOST",
        _ => "ERR",
    };
    format!("{kind} {error}")
}
