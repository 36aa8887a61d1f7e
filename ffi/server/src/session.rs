//! What a connection said of itself: its protocol, its name, and whether it is in a transaction.

use crate::replies::Replies;
use crate::session_commands::{Protocol, SessionCommand};

/// A transaction isn't done: what is told at its end.
const NO_TRANSACTIONS: &str = "EXECABORT Transaction discarded, since this server makes none: nothing of it was done. Send its commands \
                               without MULTI and EXEC; in redis-py that is pipeline(transaction=False)";
const NO_WATCH: &str = "ERR WATCH is for transactions, and this server makes none. One command changes one key: INCR, SET with NX or XX, \
                        GETSET and GETDEL need no WATCH";

/// One connection's.
#[derive(Debug)]
pub(crate) struct Session {
    number: u64,
    name: Vec<u8>,
    protocol: Protocol,
    is_in_transaction: bool,
}

impl Session {
    /// The number is this connection's alone.
    pub(crate) fn new(number: u64) -> Session {
        Session { number, name: Vec::new(), protocol: Protocol::default(), is_in_transaction: false }
    }

    /// Whether commands are said to be kept for the end of a transaction. None of them is done then, since transactions aren't made: a client
    /// takes what it sent between `MULTI` and `EXEC` for one thing, and half of it is worse than nothing.
    pub(crate) fn is_in_transaction(&self) -> bool {
        self.is_in_transaction
    }

    /// Adds the one reply to a command about the connection.
    pub(crate) fn answer(&mut self, command: &SessionCommand, replies: &mut Replies) {
        match command {
            SessionCommand::Begin if self.is_in_transaction => replies.error("ERR MULTI calls can not be nested"),
            SessionCommand::Watch if self.is_in_transaction => replies.error("ERR WATCH inside MULTI is not allowed"),
            SessionCommand::Begin => {
                self.is_in_transaction = true;
                replies.status("OK");
            }
            SessionCommand::End { is_to_be_done } => self.end(*is_to_be_done, replies),
            SessionCommand::Watch => replies.error(NO_WATCH),
            SessionCommand::Reset => {
                *self = Session::new(self.number);
                replies.speak(self.protocol);
                replies.status("RESET");
            }
            _ if self.is_in_transaction => replies.status("QUEUED"),
            SessionCommand::Hello { protocol, name } => self.greet(*protocol, *name, replies),
            SessionCommand::Name if self.name.is_empty() => replies.nil(),
            SessionCommand::Name => replies.bulk(&self.name),
            SessionCommand::Rename(name) => {
                self.name = name.to_vec();
                replies.status("OK");
            }
            SessionCommand::Number => replies.count(self.number),
            SessionCommand::Note => replies.status("OK"),
        }
    }

    fn end(&mut self, is_to_be_done: bool, replies: &mut Replies) {
        match (self.is_in_transaction, is_to_be_done) {
            (false, true) => replies.error("ERR EXEC without MULTI"),
            (false, false) => replies.error("ERR DISCARD without MULTI"),
            (true, true) => replies.error(NO_TRANSACTIONS),
            (true, false) => replies.status("OK"),
        }
        self.is_in_transaction = false;
    }

    fn greet(&mut self, protocol: Option<Protocol>, name: Option<&[u8]>, replies: &mut Replies) {
        self.protocol = protocol.unwrap_or(self.protocol);
        if let Some(name) = name {
            self.name = name.to_vec();
        }
        replies.speak(self.protocol);
        replies.map(7);
        replies.bulk(b"server");
        replies.bulk(b"citrus_server");
        replies.bulk(b"version");
        replies.bulk(env!("CARGO_PKG_VERSION").as_bytes());
        replies.bulk(b"proto");
        replies.count(if self.protocol == Protocol::Third { 3 } else { 2 });
        replies.bulk(b"id");
        replies.count(self.number);
        replies.bulk(b"mode");
        replies.bulk(b"standalone");
        replies.bulk(b"role");
        replies.bulk(b"master");
        replies.bulk(b"modules");
        replies.array(0);
    }
}

#[cfg(test)]
mod tests {
    use super::*;
    use crate::commands::Command;
    use crate::parser::Parser;

    /// What a session says to lines that are about the connection; to others whether they are kept.
    fn told(lines: &[&str]) -> Vec<String> {
        let (mut session, mut replies) = (Session::new(7), Replies::default());
        let mut tell = |line: &&str| {
            let mut parser = Parser::default();
            parser.feed(format!("{line}\n").as_bytes());
            let request = parser.request().expect("the tests have good lines alone").expect("a line is a request");
            match Command::<u64>::of(request) {
                Ok(Command::Session(command)) => session.answer(&command, &mut replies),
                Ok(_) => replies.status(if session.is_in_transaction() { "kept" } else { "done" }),
                Err(refusal) => replies.error(&refusal.to_string()),
            }
            let text = String::from_utf8_lossy(replies.unsent()).replace("\r\n", " ").trim_end().to_owned();
            replies.were_sent(replies.unsent().len());
            text
        };
        lines.iter().map(&mut tell).collect()
    }

    fn check(session: &[(&str, &str)]) {
        let lines: Vec<&str> = session.iter().map(|(line, _)| *line).collect();
        for ((line, reply), told) in session.iter().zip(told(&lines)) {
            assert!(told == *reply || reply.strip_suffix("..").map_or(false, |begin| told.starts_with(begin)), "{line}: {told}");
        }
    }

    #[test]
    fn a_connection_has_a_name_and_a_number() {
        const BAD_NAME: &str = "-ERR Client names cannot contain spaces, newlines or special characters.";
        check(&[
            ("CLIENT GETNAME", "$-1"),
            ("client setname me", "+OK"),
            ("CLIENT GETNAME", "$2 me"),
            ("CLIENT SETNAME \"a b\"", BAD_NAME),
            ("CLIENT GETNAME", "$2 me"),
            ("CLIENT SETNAME \"\"", "+OK"),
            ("CLIENT GETNAME", "$-1"),
            ("CLIENT ID", ":7"),
            ("CLIENT SETINFO lib-name redis-py", "+OK"),
            ("CLIENT SETINFO LIB-VER 5.0.1", "+OK"),
            ("CLIENT SETINFO lib-ver \"5 1\"", "-ERR lib-ver cannot contain spaces, newlines or special characters."),
            ("CLIENT SETINFO lib x", "-ERR Unrecognized option 'lib'"),
            ("CLIENT FOO", "-ERR unknown subcommand 'FOO'. Try CLIENT HELP."),
            ("CLIENT SETNAME", "-ERR wrong number of arguments for 'client|setname' command"),
            ("CLIENT", "-ERR wrong number of arguments for 'client' command"),
        ]);
    }

    #[test]
    fn clients_are_greeted_in_the_protocol_that_they_ask_for() {
        check(&[
            ("HELLO", "*14 $6 server $13 citrus_server $7 version .."),
            ("HELLO 3", "%7 $6 server .."),
            ("CLIENT GETNAME", "_"),
            ("HELLO 2 AUTH default x SETNAME me", "*14 $6 server .."),
            ("CLIENT GETNAME", "$2 me"),
            ("HELLO 4", "-NOPROTO unsupported protocol version"),
            ("HELLO x", "-ERR Protocol version is not an integer or out of range"),
            ("HELLO 3 AUTH other x", "-WRONGPASS invalid username-password pair or user is disabled."),
            ("HELLO 3 SETNAME \"a b\"", "-ERR Client names cannot contain spaces, newlines or special characters."),
            ("HELLO 3 FOO", "-ERR Syntax error in HELLO option 'FOO'"),
            ("HELLO 3 SETNAME", "-ERR Syntax error in HELLO option 'SETNAME'"),
            ("CLIENT GETNAME", "$2 me"),
            ("HELLO 3", "%7 $6 server .."),
            ("RESET", "+RESET"),
            ("CLIENT GETNAME", "$-1"),
        ]);
    }

    #[test]
    fn there_is_one_database_and_no_password() {
        check(&[
            ("SELECT 0", "+OK"),
            ("SELECT 1", "-ERR DB index is out of range"),
            ("SELECT -1", "-ERR DB index is out of range"),
            ("SELECT x", "-ERR value is not an integer or out of range"),
            ("SELECT", "-ERR wrong number of arguments for 'select' command"),
            ("AUTH default x", "+OK"),
            ("AUTH a b", "-WRONGPASS invalid username-password pair or user is disabled."),
            ("AUTH x", "-ERR AUTH <password> called without any password configured for the default user. .."),
        ]);
    }

    #[test]
    fn nothing_of_a_transaction_is_done() {
        check(&[
            ("EXEC", "-ERR EXEC without MULTI"),
            ("DISCARD", "-ERR DISCARD without MULTI"),
            ("UNWATCH", "+OK"),
            ("WATCH 5", "-ERR WATCH is for transactions, .."),
            ("SET 5 50", "+done"),
            ("MULTI", "+OK"),
            ("SET 5 51", "+kept"),
            ("CLIENT SETNAME me", "+QUEUED"),
            ("MULTI", "-ERR MULTI calls can not be nested"),
            ("WATCH 5", "-ERR WATCH inside MULTI is not allowed"),
            ("EXEC", "-EXECABORT Transaction discarded, since this server makes none: .."),
            ("CLIENT GETNAME", "$-1"),
            ("SET 5 51", "+done"),
            ("MULTI", "+OK"),
            ("DISCARD", "+OK"),
            ("EXEC", "-ERR EXEC without MULTI"),
            ("MULTI", "+OK"),
            ("RESET", "+RESET"),
            ("GET 5", "+done"),
        ]);
    }
}
