//! What Linux has and std doesn't: epoll, by which a worker waits for all its connections at once, and a longer queue of those that come.
//! This module declares the calls that the C library has for it, and is the only one with unsafe code.

use std::io::{self, ErrorKind};
use std::net::TcpListener;
use std::os::raw::c_int;
use std::os::unix::io::{AsRawFd, FromRawFd, OwnedFd};
use std::time::Duration;

/// So many events are told at a time. Those that are left are told by the next call.
const ROOM: c_int = 256;

const CLOSE_ON_EXEC: c_int = 0o2_000_000;
const ADD: c_int = 1;
const CHANGE: c_int = 3;
const READABLE: u32 = 1;
const WRITABLE: u32 = 4;

/// What is waited for. An error, and the end of a connection on both sides, are told at either.
#[derive(Clone, Copy, Debug, PartialEq, Eq)]
pub enum Interest {
    /// Bytes came, or there will be no more.
    Read,
    /// There is room for bytes.
    Write,
}

/// An `epoll_event`. On x86-64 it has no gap.
#[cfg_attr(target_arch = "x86_64", repr(C, packed))]
#[cfg_attr(not(target_arch = "x86_64"), repr(C))]
#[derive(Clone, Copy)]
struct Event {
    kinds: u32,
    token: u64,
}

extern "C" {
    fn epoll_create1(flags: c_int) -> c_int;
    fn epoll_ctl(epoll: c_int, operation: c_int, source: c_int, event: *mut Event) -> c_int;
    fn epoll_wait(epoll: c_int, events: *mut Event, room: c_int, milliseconds: c_int) -> c_int;
    fn listen(socket: c_int, queue: c_int) -> c_int;
}

/// Lets so many connections wait until they are taken, or as many as the system has as its limit. std asks for 128, which a busy machine
/// can't take in the time in which they come; whoever finds the queue full tries again a second later.
///
/// # Errors
/// What the system says.
pub fn let_wait(listener: &TcpListener, connections: u16) -> io::Result<()> {
    // SAFETY: the call takes no memory of ours. On a socket that listens already it changes the length of the queue alone.
    told(unsafe { listen(listener.as_raw_fd(), connections.into()) }).map(|_| ())
}

/// Sources that are waited for, each under a token. One that is closed is forgotten by the system.
pub struct Epoll {
    own: OwnedFd,
    events: [Event; ROOM as usize],
}

impl Epoll {
    /// One without sources.
    ///
    /// # Errors
    /// What the system says, as where too many files are open.
    pub fn new() -> io::Result<Epoll> {
        // SAFETY: the call takes no memory of ours.
        let made = told(unsafe { epoll_create1(CLOSE_ON_EXEC) })?;
        // SAFETY: the call has just made it, so nobody else has it.
        let own = unsafe { OwnedFd::from_raw_fd(made) };
        Ok(Epoll { own, events: [Event { kinds: 0, token: 0 }; ROOM as usize] })
    }

    /// Waits for a source too, from the next [`wait`](Epoll::wait) on.
    ///
    /// # Errors
    /// What the system says, as where there is no memory.
    pub fn add(&self, source: &impl AsRawFd, token: u64, interest: Interest) -> io::Result<()> {
        self.control(ADD, source, token, interest)
    }

    /// Waits for something else at a source that was added.
    ///
    /// # Errors
    /// What the system says.
    pub fn change(&self, source: &impl AsRawFd, token: u64, interest: Interest) -> io::Result<()> {
        self.control(CHANGE, source, token, interest)
    }

    fn control(&self, operation: c_int, source: &impl AsRawFd, token: u64, interest: Interest) -> io::Result<()> {
        let kinds = match interest {
            Interest::Read => READABLE,
            Interest::Write => WRITABLE,
        };
        let mut event = Event { kinds, token };
        // SAFETY: the event is there until the call is over, and the call keeps no pointer to it. A number that is no open file, or one that
        // can't be waited for, is an error of the call.
        told(unsafe { epoll_ctl(self.own.as_raw_fd(), operation, source.as_raw_fd(), &mut event) }).map(|_| ())
    }

    /// Waits until a source has what is waited for, for so long at most, and adds the tokens of those that have. A signal may end it early.
    ///
    /// # Errors
    /// What the system says.
    pub fn wait(&mut self, limit: Option<Duration>, tokens: &mut Vec<u64>) -> io::Result<()> {
        // SAFETY: the call writes to at most as many events as there is room for.
        let waited = told(unsafe { epoll_wait(self.own.as_raw_fd(), self.events.as_mut_ptr(), ROOM, milliseconds(limit)) });
        let count = match waited {
            Ok(count) => count as usize,
            Err(error) if error.kind() == ErrorKind::Interrupted => 0,
            Err(error) => return Err(error),
        };
        tokens.extend(self.events[..count].iter().map(|event| event.token));
        Ok(())
    }
}

/// The answer of a call, or why there is none.
fn told(answer: c_int) -> io::Result<c_int> {
    if answer < 0 {
        Err(io::Error::last_os_error())
    } else {
        Ok(answer)
    }
}

/// The time in whole milliseconds, none of it cut off: else a wait of less than one would turn in a circle.
fn milliseconds(limit: Option<Duration>) -> c_int {
    let rounded = limit.map(|limit| (limit.as_nanos() + 999_999) / 1_000_000);
    rounded.map_or(-1, |limit| c_int::try_from(limit).unwrap_or(c_int::MAX))
}

#[cfg(test)]
mod tests {
    use super::*;
    use std::io::{Read, Write};
    use std::os::unix::net::UnixStream;

    fn ready(epoll: &mut Epoll) -> Vec<u64> {
        let mut tokens = Vec::new();
        epoll.wait(Some(Duration::ZERO), &mut tokens).expect("it can be asked");
        tokens.sort_unstable();
        tokens
    }

    #[test]
    fn sources_are_told_while_they_have_what_is_waited_for() {
        let mut epoll = Epoll::new().expect("a file is free");
        let (mut near, mut far) = UnixStream::pair().expect("two files are free");
        epoll.add(&near, 7, Interest::Read).expect("it is a socket");
        epoll.add(&far, u64::MAX, Interest::Write).expect("it is a socket");
        assert_eq!(ready(&mut epoll), [u64::MAX]);
        far.write_all(b"x").expect("there is room");
        assert_eq!(ready(&mut epoll), [7, u64::MAX]);
        assert_eq!(ready(&mut epoll), [7, u64::MAX]);
        near.read_exact(&mut [0]).expect("a byte came");
        epoll.change(&far, 8, Interest::Read).expect("it was added");
        assert_eq!(ready(&mut epoll), []);
        drop(near);
        assert_eq!(ready(&mut epoll), [8]);
        drop(far);
        assert_eq!(ready(&mut epoll), []);
    }

    #[test]
    fn a_source_that_was_not_added_can_not_be_changed() {
        let epoll = Epoll::new().expect("a file is free");
        let (near, _far) = UnixStream::pair().expect("two files are free");
        assert!(epoll.change(&near, 1, Interest::Read).is_err());
    }

    #[test]
    fn times_are_rounded_up() {
        assert_eq!(milliseconds(None), -1);
        assert_eq!(milliseconds(Some(Duration::ZERO)), 0);
        assert_eq!(milliseconds(Some(Duration::from_nanos(1))), 1);
        assert_eq!(milliseconds(Some(Duration::from_millis(3))), 3);
        assert_eq!(milliseconds(Some(Duration::MAX)), c_int::MAX);
    }

    #[test]
    fn a_socket_that_listens_goes_on_with_a_longer_queue() {
        let listener = TcpListener::bind("127.0.0.1:0").expect("a port is free");
        let_wait(&listener, 1_000).expect("it listens");
        let address = listener.local_addr().expect("it has one");
        let _crowd: Vec<_> = (0..200).map(|_| std::net::TcpStream::connect(address).expect("there is room")).collect();
        assert!(listener.accept().is_ok());
    }
}
