//! Why a request is no command, in Redis's words where Redis has the like.

use std::fmt;

/// What a number stands for in a request.
#[derive(Clone, Copy, Debug, PartialEq, Eq)]
pub enum Role {
    /// It is a key, or an end of a range.
    Key,
    /// It is a value, an amount, a time or a limit.
    Value,
}

impl fmt::Display for Role {
    fn fmt(&self, text: &mut fmt::Formatter<'_>) -> fmt::Result {
        text.write_str(match self {
            Role::Key => "key",
            Role::Value => "value",
        })
    }
}

/// Why a request is no command.
#[derive(Clone, Debug, PartialEq, Eq)]
pub enum Refusal {
    /// There is no command of this name.
    Unknown {
        /// The name and the words behind it.
        words: Vec<String>,
    },
    /// The command has no other one of this name below it.
    Subcommand {
        /// The command's name.
        command: &'static str,
        /// The name that it doesn't know.
        name: String,
    },
    /// The command takes another number of words.
    Arguments {
        /// The command's name.
        name: String,
    },
    /// A key or a value isn't decimal digits or is above 2^64 - 1, or an amount isn't from -2^63 to 2^63 - 1.
    Number(Role),
    /// A number has zeros before its digits, or a minus before 0.
    Spelling(Role),
    /// An amount to take away is -2^63, which can't be added.
    Decrement,
    /// A word stands where none of the command's may.
    Syntax,
    /// A limit isn't from 1 to this.
    Limit(usize),
    /// The time of this command isn't after 0, or is too far away for a moment of 63 bits in milliseconds.
    ExpireTime {
        /// The command's name.
        name: &'static str,
    },
    /// An `EXPIRE` knows no such option.
    ExpireOption(String),
    /// A `HELLO` knows no such option, or lacks a word behind it.
    HelloOption(String),
    /// A `CLIENT SETINFO` knows no such attribute.
    Attribute(String),
    /// What has these words, whatever was asked.
    Told(&'static str),
}

impl fmt::Display for Refusal {
    fn fmt(&self, text: &mut fmt::Formatter<'_>) -> fmt::Result {
        match self {
            Refusal::Unknown { words } => {
                let (name, arguments) = words.split_first().map_or(("", &words[..]), |(name, rest)| (name, rest));
                write!(text, "ERR unknown command '{name}', with args beginning with: ")?;
                arguments.iter().try_for_each(|word| write!(text, "'{word}' "))
            }
            Refusal::Subcommand { command, name } => write!(text, "ERR unknown subcommand '{name}'. Try {command} HELP."),
            Refusal::Arguments { name } => write!(text, "ERR wrong number of arguments for '{name}' command"),
            Refusal::Number(role) => write!(text, "ERR {role} is not an integer or out of range"),
            Refusal::Spelling(role) => write!(text, "ERR {role} is not in its one spelling, which has no zeros before its digits"),
            Refusal::Decrement => text.write_str("ERR decrement would overflow"),
            Refusal::Syntax => text.write_str("ERR syntax error"),
            Refusal::Limit(most) => write!(text, "ERR LIMIT is out of range, must be from 1 to {most}"),
            Refusal::ExpireTime { name } => write!(text, "ERR invalid expire time in '{name}' command"),
            Refusal::ExpireOption(word) => write!(text, "ERR Unsupported option {word}"),
            Refusal::HelloOption(word) => write!(text, "ERR Syntax error in HELLO option '{word}'"),
            Refusal::Attribute(word) => write!(text, "ERR Unrecognized option '{word}'"),
            Refusal::Told(words) => text.write_str(words),
        }
    }
}

/// A word as an error may say it: its first bytes.
pub(crate) fn shown(word: &[u8]) -> String {
    String::from_utf8_lossy(&word[..word.len().min(128)]).into_owned()
}
