//! From requests to the commands that are about the connection itself: what clients say first.

use crate::refusals::{shown, Refusal};
use crate::words::{integer, Name};

/// A version of the protocol in which replies are written.
#[derive(Clone, Copy, Debug, Default, PartialEq, Eq)]
pub enum Protocol {
    /// RESP2.
    #[default]
    Second,
    /// RESP3, which has a nil, maps and texts of its own.
    Third,
}

/// What a request says of its connection.
#[derive(Clone, Debug, PartialEq, Eq)]
pub enum SessionCommand<'a> {
    /// The connection goes on in this protocol, and has this name, where they are said; it is told who answers.
    Hello {
        /// The protocol from now on.
        protocol: Option<Protocol>,
        /// The connection's name from now on.
        name: Option<&'a [u8]>,
    },
    /// Its name.
    Name,
    /// It has this name from now on. An empty one is none.
    Rename(&'a [u8]),
    /// Its number.
    Number,
    /// It tells what client it has, goes to the one database, gives up what it watched, or says who it is: nothing comes of that.
    Note,
    /// A transaction begins.
    Begin,
    /// The transaction ends.
    End {
        /// Whether its commands are to be done.
        is_to_be_done: bool,
    },
    /// Keys whose change is to keep the next transaction from being done.
    Watch,
    /// All is as for a new connection.
    Reset,
}

/// The names of these commands.
pub(crate) const NAMES: &str = "HELLO CLIENT SELECT AUTH MULTI EXEC DISCARD WATCH UNWATCH RESET";

const WRONG_PASSWORD: Refusal = Refusal::Told("WRONGPASS invalid username-password pair or user is disabled.");
const NO_PASSWORD: Refusal = Refusal::Told(
    "ERR AUTH <password> called without any password configured for the default user. Are you sure your configuration is correct?",
);
const BAD_NAME: Refusal = Refusal::Told("ERR Client names cannot contain spaces, newlines or special characters.");

impl<'a> SessionCommand<'a> {
    /// The command that the words behind a name are. The name is in capitals.
    pub(crate) fn of(name: &[u8], arguments: &[&'a [u8]]) -> Result<Option<SessionCommand<'a>>, Refusal> {
        Ok(Some(match (name, arguments) {
            (b"HELLO", _) => hello(arguments)?,
            (b"CLIENT", [name, rest @ ..]) => client(name, rest)?,
            (b"SELECT", [number]) => match integer(number)? {
                0 => SessionCommand::Note,
                _ => return Err(Refusal::Told("ERR DB index is out of range")),
            },
            (b"AUTH", [_]) => return Err(NO_PASSWORD),
            (b"AUTH", [user, _]) => user_of(user)?,
            (b"MULTI", []) => SessionCommand::Begin,
            (b"EXEC", []) => SessionCommand::End { is_to_be_done: true },
            (b"DISCARD", []) => SessionCommand::End { is_to_be_done: false },
            (b"WATCH", [_, ..]) => SessionCommand::Watch,
            (b"UNWATCH", []) => SessionCommand::Note,
            (b"RESET", []) => SessionCommand::Reset,
            _ => return Ok(None),
        }))
    }
}

/// There is one user, who has no password: as in a Redis that was given none.
fn user_of(user: &[u8]) -> Result<SessionCommand<'static>, Refusal> {
    if user == b"default" {
        Ok(SessionCommand::Note)
    } else {
        Err(WRONG_PASSWORD)
    }
}

fn protocol(word: &[u8]) -> Result<Protocol, Refusal> {
    match integer(word) {
        Ok(2) => Ok(Protocol::Second),
        Ok(3) => Ok(Protocol::Third),
        Ok(_) => Err(Refusal::Told("NOPROTO unsupported protocol version")),
        Err(_) => Err(Refusal::Told("ERR Protocol version is not an integer or out of range")),
    }
}

/// A name has signs that can be seen, and no spaces.
fn name_of(word: &[u8]) -> Result<&[u8], Refusal> {
    if word.iter().all(u8::is_ascii_graphic) {
        Ok(word)
    } else {
        Err(BAD_NAME)
    }
}

fn hello<'a>(arguments: &[&'a [u8]]) -> Result<SessionCommand<'a>, Refusal> {
    let (version, mut rest) = match arguments {
        [] => (None, arguments),
        [word, rest @ ..] => (Some(protocol(word)?), rest),
    };
    let mut name = None;
    while let [option, following @ ..] = rest {
        rest = match (Name::of(option).capitals(), following) {
            (b"AUTH", [user, _, behind @ ..]) => {
                user_of(user)?;
                behind
            }
            (b"SETNAME", [word, behind @ ..]) => {
                name = Some(name_of(word)?);
                behind
            }
            _ => return Err(Refusal::HelloOption(shown(option))),
        };
    }
    Ok(SessionCommand::Hello { protocol: version, name })
}

fn client<'a>(name: &[u8], arguments: &[&'a [u8]]) -> Result<SessionCommand<'a>, Refusal> {
    let upper = Name::of(name);
    match (upper.capitals(), arguments) {
        (b"SETNAME", [word]) => Ok(SessionCommand::Rename(name_of(word)?)),
        (b"GETNAME", []) => Ok(SessionCommand::Name),
        (b"ID", []) => Ok(SessionCommand::Number),
        (b"SETINFO", [attribute, word]) => set_information(attribute, word),
        (b"SETNAME" | b"GETNAME" | b"ID" | b"SETINFO", _) => {
            Err(Refusal::Arguments { name: format!("client|{}", shown(name).to_ascii_lowercase()) })
        }
        _ => Err(Refusal::Subcommand { command: "CLIENT", name: shown(name) }),
    }
}

/// What a client says of itself is looked at as Redis does, and not kept.
fn set_information(attribute: &[u8], word: &[u8]) -> Result<SessionCommand<'static>, Refusal> {
    match (Name::of(attribute).capitals(), name_of(word)) {
        (b"LIB-NAME" | b"LIB-VER", Ok(_)) => Ok(SessionCommand::Note),
        (b"LIB-NAME", Err(_)) => Err(Refusal::Told("ERR lib-name cannot contain spaces, newlines or special characters.")),
        (b"LIB-VER", Err(_)) => Err(Refusal::Told("ERR lib-ver cannot contain spaces, newlines or special characters.")),
        _ => Err(Refusal::Attribute(shown(attribute))),
    }
}
