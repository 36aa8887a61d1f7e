//! One connection: what came by it, what is to be sent, and what it waits for. No call here waits.

use crate::census::Census;
use crate::pairs::{Clearing, Keeper, Outcome};
use crate::parser::Parser;
use crate::replies::Replies;
use crate::session::Session;
use std::io::{self, ErrorKind, Read, Write};
use std::net::{Shutdown, SocketAddr, TcpStream};
use std::time::{Duration, Instant};

/// So many bytes are read at once, and no more requests are answered while there are as many unsent.
pub(crate) const CHUNK: usize = 65_536;
/// So long a connection that ends here waits for its client to end it too.
const FAREWELL: Duration = Duration::from_secs(1);
/// Each buffer keeps so many bytes of memory while nothing is under way.
const KEPT: usize = 1_024;

/// What a connection does next.
#[derive(Clone, Copy, Debug, PartialEq, Eq)]
pub(crate) enum Next {
    /// It waits for bytes.
    Read,
    /// It waits until its client takes replies, and reads nothing before.
    Write,
    /// It goes on at once, when others had their turn.
    Turn,
    /// It is over.
    End,
    /// It is over, since it spoke HTTP.
    EndOfHttp,
}

/// How far a connection is.
#[derive(Clone, Copy, Debug, PartialEq, Eq)]
enum Phase {
    /// Requests come.
    Open,
    /// The client sends no more. It gets the replies that are left.
    Heard,
    /// No more is answered. The client gets the replies that are left.
    Ending,
    /// The client was told the end. What it still sends is thrown away until it ends the connection too, or until this moment: where bytes
    /// are left unread, the system tells a client to throw away what it has.
    Farewell(Instant),
}

/// Why no more requests are answered in a turn.
#[derive(Clone, Copy, Debug, PartialEq, Eq)]
enum Stop {
    /// The next one hasn't come whole.
    Bytes,
    /// The turn is over.
    Turn,
    /// The connection is to end, when the client has its replies.
    Farewell,
    /// The connection is to end at once.
    Http,
}

/// A connection with a client, on a socket that waits for nothing.
#[derive(Debug)]
pub(crate) struct Connection<P> {
    stream: TcpStream,
    parser: Parser,
    replies: Replies,
    clearing: Option<Clearing<P>>,
    session: Session,
    phase: Phase,
    /// Whether requests that came whole may be unanswered.
    is_behind: bool,
    /// When the last whole request came, or the client last took a part of a reply.
    alive: Instant,
}

impl<P> Connection<P> {
    /// The number is this connection's alone.
    pub(crate) fn new(stream: TcpStream, number: u64, now: Instant) -> Connection<P> {
        let (parser, replies, session) = (Parser::default(), Replies::default(), Session::new(number));
        Connection { stream, parser, replies, clearing: None, session, phase: Phase::Open, is_behind: false, alive: now }
    }

    /// What is to be waited for.
    pub(crate) fn stream(&self) -> &TcpStream {
        &self.stream
    }

    /// The client's address.
    pub(crate) fn peer(&self) -> Option<SocketAddr> {
        self.stream.peer_addr().ok()
    }

    /// Whether it is to end, since nothing whole was sent and nothing taken for so long.
    pub(crate) fn is_over(&self, now: Instant, idle: Option<Duration>) -> bool {
        match self.phase {
            Phase::Farewell(until) => now >= until,
            _ => idle.map_or(false, |idle| now.saturating_duration_since(self.alive) >= idle),
        }
    }

    /// Sends, reads and answers what it can, a part at a time so that others have their turns.
    ///
    /// # Errors
    /// Where the client is gone.
    pub(crate) fn turn(&mut self, store: &impl Keeper<Place = P>, census: &Census, chunk: &mut [u8], now: Instant) -> io::Result<Next> {
        if !self.send(now)? {
            return Ok(Next::Write);
        }
        match self.phase {
            Phase::Farewell(_) => return self.throw_away(chunk),
            Phase::Open if !self.is_behind => self.receive(chunk)?,
            Phase::Open | Phase::Heard | Phase::Ending => {}
        }
        if self.phase != Phase::Ending {
            match self.answer_some(store, census, now) {
                Stop::Http => {
                    self.send(now)?;
                    return Ok(Next::EndOfHttp);
                }
                Stop::Farewell => self.phase = Phase::Ending,
                stop => self.is_behind = stop == Stop::Turn,
            }
        }
        if !self.send(now)? {
            return Ok(Next::Write);
        }
        self.rest(now)
    }

    /// What it does when all is sent.
    fn rest(&mut self, now: Instant) -> io::Result<Next> {
        match self.phase {
            Phase::Ending => {
                self.stream.shutdown(Shutdown::Write)?;
                self.phase = Phase::Farewell(now + FAREWELL);
                Ok(Next::Read)
            }
            _ if self.is_behind => Ok(Next::Turn),
            Phase::Heard => Ok(Next::End),
            Phase::Open | Phase::Farewell(_) => {
                self.parser.shrink_to(KEPT);
                self.replies.shrink_to(KEPT);
                Ok(Next::Read)
            }
        }
    }

    /// Sends replies, and says whether all were taken.
    fn send(&mut self, now: Instant) -> io::Result<bool> {
        while !self.replies.unsent().is_empty() {
            match self.stream.write(self.replies.unsent()) {
                Ok(0) => return Err(ErrorKind::WriteZero.into()),
                Ok(count) => {
                    self.replies.were_sent(count);
                    self.alive = now;
                }
                Err(error) if error.kind() == ErrorKind::WouldBlock => return Ok(false),
                Err(error) if error.kind() == ErrorKind::Interrupted => {}
                Err(error) => return Err(error),
            }
        }
        Ok(true)
    }

    /// Takes what came, or the word that no more will.
    fn receive(&mut self, chunk: &mut [u8]) -> io::Result<()> {
        match self.stream.read(chunk) {
            Ok(0) => self.phase = Phase::Heard,
            Ok(count) => self.parser.feed(&chunk[..count]),
            Err(error) if is_for_later(&error) => {}
            Err(error) => return Err(error),
        }
        Ok(())
    }

    /// Behind the farewell.
    fn throw_away(&mut self, chunk: &mut [u8]) -> io::Result<Next> {
        match self.stream.read(chunk) {
            Ok(0) => Ok(Next::End),
            Ok(_) => Ok(Next::Read),
            Err(error) if is_for_later(&error) => Ok(Next::Read),
            Err(error) => Err(error),
        }
    }

    /// Answers requests that came whole, until there are as many replies as are sent at once. Each request has its reply, in their order.
    fn answer_some(&mut self, store: &impl Keeper<Place = P>, census: &Census, now: Instant) -> Stop {
        while self.replies.unsent().len() < CHUNK {
            if let Some(clearing) = self.clearing.take() {
                self.alive = now;
                self.clearing = clearing.go_on(store, &mut self.replies);
                if self.clearing.is_some() {
                    return Stop::Turn;
                }
            }
            let request = match self.parser.request() {
                Ok(Some(request)) => request,
                Ok(None) => return Stop::Bytes,
                Err(broken) => {
                    self.replies.error(&format!("ERR {broken}"));
                    return Stop::Farewell;
                }
            };
            self.alive = now;
            match store.do_request(request, &mut self.session, census, &mut self.replies) {
                Outcome::Replied => {}
                Outcome::Clearing(clearing) => self.clearing = Some(clearing),
                Outcome::Farewell => return Stop::Farewell,
                Outcome::Http => return Stop::Http,
            }
        }
        Stop::Turn
    }
}

/// Whether a read that failed is to be made again, when the source is told to have something.
fn is_for_later(error: &io::Error) -> bool {
    matches!(error.kind(), ErrorKind::WouldBlock | ErrorKind::Interrupted)
}
