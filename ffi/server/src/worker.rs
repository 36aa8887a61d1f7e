//! A worker: a thread with a handle of the index and with connections of its own.

use crate::census::Census;
use crate::connection::{Connection, Next, CHUNK};
use crate::pairs::Keeper;
use crate::system::{Epoll, Interest};
use crate::warnings::Warnings;
use std::collections::HashMap;
use std::io::{self, Read, Write};
use std::net::TcpStream;
use std::os::unix::net::UnixStream;
use std::sync::mpsc::{channel, Receiver, Sender, TryRecvError};
use std::sync::Arc;
use std::thread;
use std::time::{Duration, Instant};

/// It looks for connections that are to end at least so often, and no oftener than the other.
const LONGEST_BETWEEN_SWEEPS: Duration = Duration::from_millis(500);
const SHORTEST_BETWEEN_SWEEPS: Duration = Duration::from_millis(10);
/// So often it looks for keys whose deadline is over, once there are deadlines.
const BETWEEN_EXPIRIES: Duration = Duration::from_millis(100);
/// The token of the socket by which a worker is woken. Connections have greater ones.
const WAKE: u64 = 0;

/// The way by which a worker gets connections. Where it is dropped the worker ends, with all its connections.
#[derive(Debug)]
pub(crate) struct Inbox {
    connections: Sender<TcpStream>,
    wake: UnixStream,
    census: Arc<Census>,
    worker: usize,
}

impl Inbox {
    /// Starts a worker, which has the number of its store in the census.
    ///
    /// # Errors
    /// Where there is no file or no thread for it.
    pub(crate) fn start(
        store: impl Keeper + Send + 'static,
        census: Arc<Census>,
        idle: Option<Duration>,
        warnings: Arc<Warnings>,
    ) -> io::Result<Inbox> {
        let (connections, handed_over) = channel();
        let (wake, woken) = UnixStream::pair()?;
        wake.set_nonblocking(true)?;
        woken.set_nonblocking(true)?;
        let epoll = Epoll::new()?;
        epoll.add(&woken, WAKE, Interest::Read)?;
        let (worker, its_census) = (store.worker(), Arc::clone(&census));
        thread::Builder::new().name("citrus worker".into()).spawn(move || {
            let worker = Worker {
                epoll,
                handed_over,
                woken,
                connections: HashMap::new(),
                last_token: WAKE,
                behind: Vec::new(),
                chunk: vec![0; CHUNK],
                store,
                idle,
                swept: Instant::now(),
                expired: Instant::now(),
                census: its_census,
                warnings,
            };
            if let Err(error) = worker.run() {
                // It has no means to tell its connections any more.
                eprintln!("a worker ended, with its connections: {error}");
            }
        })?;
        Ok(Inbox { connections, wake, census, worker })
    }

    /// How many connections it has.
    pub(crate) fn load(&self) -> usize {
        self.census.load(self.worker)
    }

    /// Hands a connection over.
    ///
    /// # Errors
    /// Gives it back where the worker has ended.
    pub(crate) fn hand_over(&self, stream: TcpStream) -> Result<(), TcpStream> {
        self.census.came(self.worker);
        self.connections.send(stream).map_err(|refused| refused.0)?;
        // Where there is no room for one more byte it will be woken by those before.
        let _ = (&self.wake).write(&[0]);
        Ok(())
    }
}

/// A connection, and what is waited for at it.
struct Watched<P> {
    connection: Connection<P>,
    interest: Interest,
}

struct Worker<S: Keeper> {
    epoll: Epoll,
    handed_over: Receiver<TcpStream>,
    woken: UnixStream,
    connections: HashMap<u64, Watched<S::Place>>,
    last_token: u64,
    /// The tokens of those that go on without anything that they wait for.
    behind: Vec<u64>,
    /// Where bytes are read to.
    chunk: Vec<u8>,
    store: S,
    idle: Option<Duration>,
    /// When it last looked for connections that are to end.
    swept: Instant,
    /// When it last looked for keys whose deadline is over.
    expired: Instant,
    census: Arc<Census>,
    warnings: Arc<Warnings>,
}

impl<S: Keeper> Worker<S> {
    /// Serves until nobody can hand over connections any more.
    fn run(mut self) -> io::Result<()> {
        let mut due = Vec::new();
        loop {
            self.epoll.wait(self.time_to_sweep(), &mut due)?;
            due.append(&mut self.behind);
            due.sort_unstable();
            due.dedup();
            let now = Instant::now();
            for token in due.drain(..) {
                if token != WAKE {
                    self.turn(token, now);
                } else if !self.welcome(now) {
                    return Ok(());
                }
            }
            self.sweep(now);
            self.expire(now);
        }
    }

    /// How long it may wait: not at all where connections go on, and for ever where there are none and no deadlines.
    fn time_to_sweep(&self) -> Option<Duration> {
        if !self.behind.is_empty() {
            return Some(Duration::ZERO);
        }
        let of_connections = (!self.connections.is_empty()).then(|| self.between_sweeps().saturating_sub(self.swept.elapsed()));
        let of_keys = self.store.may_expire().then(|| BETWEEN_EXPIRIES.saturating_sub(self.expired.elapsed()));
        of_connections.into_iter().chain(of_keys).min()
    }

    /// Takes out some keys whose deadline is over. Where there are many more it does so again when its connections had a turn.
    fn expire(&mut self, now: Instant) {
        if !self.store.may_expire() || now.saturating_duration_since(self.expired) < BETWEEN_EXPIRIES {
            return;
        }
        // Where its handle is at its end its clients are told so.
        if !self.store.expire_some().unwrap_or(false) {
            self.expired = now;
        }
    }

    fn between_sweeps(&self) -> Duration {
        let wanted = self.idle.map_or(LONGEST_BETWEEN_SWEEPS, |idle| idle / 8);
        wanted.clamp(SHORTEST_BETWEEN_SWEEPS, LONGEST_BETWEEN_SWEEPS)
    }

    /// Takes the connections that were handed over, and says whether there may be more.
    fn welcome(&mut self, now: Instant) -> bool {
        // Whoever hands one over wakes it after that.
        let _ = self.woken.read(&mut [0; 256]);
        loop {
            match self.handed_over.try_recv() {
                Ok(stream) => self.watch(stream, now),
                Err(TryRecvError::Empty) => return true,
                Err(TryRecvError::Disconnected) => return false,
            }
        }
    }

    /// Has a connection from now on, unless its client is gone.
    fn watch(&mut self, stream: TcpStream, now: Instant) {
        self.last_token += 1;
        let is_ready = stream.set_nonblocking(true).and_then(|()| stream.set_nodelay(true));
        if is_ready.and_then(|()| self.epoll.add(&stream, self.last_token, Interest::Read)).is_ok() {
            let connection = Connection::new(stream, self.census.next_number(), now);
            self.connections.insert(self.last_token, Watched { connection, interest: Interest::Read });
        } else {
            self.census.went(self.store.worker(), 1);
        }
    }

    fn turn(&mut self, token: u64, now: Instant) {
        let watched = match self.connections.get_mut(&token) {
            Some(watched) => watched,
            None => return,
        };
        let interest = match watched.connection.turn(&self.store, &self.census, &mut self.chunk, now) {
            Ok(Next::Read) => Interest::Read,
            Ok(Next::Write) => Interest::Write,
            Ok(Next::Turn) => return self.behind.push(token),
            Ok(Next::EndOfHttp) => {
                let whose = watched.connection.peer().map_or_else(|| "somebody".into(), |address| address.to_string());
                let why = "was closed, since it spoke HTTP: a web page may try to write here by a browser";
                self.warnings.say(|| format!("a connection of {whose} {why}"));
                return self.end(token);
            }
            Ok(Next::End) | Err(_) => return self.end(token),
        };
        if interest != watched.interest {
            watched.interest = interest;
            if self.epoll.change(watched.connection.stream(), token, interest).is_err() {
                self.end(token);
            }
        }
    }

    fn end(&mut self, token: u64) {
        self.connections.remove(&token);
        self.census.went(self.store.worker(), 1);
    }

    /// Ends the connections that have been quiet for too long.
    fn sweep(&mut self, now: Instant) {
        if now.saturating_duration_since(self.swept) < self.between_sweeps() {
            return;
        }
        self.swept = now;
        let (before, idle) = (self.connections.len(), self.idle);
        self.connections.retain(|_, watched| !watched.connection.is_over(now, idle));
        self.census.went(self.store.worker(), before - self.connections.len());
    }
}

#[cfg(test)]
mod tests {
    use super::*;
    use crate::store::Store;
    use citrus_map::Index;
    use std::net::TcpListener;

    fn worker() -> Inbox {
        let index = Index::new(10, 1).expect("there is memory");
        let store = Store::all(&index).expect("an empty index is counted").remove(0);
        Inbox::start(store, Arc::new(Census::new(1, 0, 10)), None, Arc::default()).expect("there are files and a thread")
    }

    /// A client, and the connection with it.
    fn connected() -> (TcpStream, TcpStream) {
        let listener = TcpListener::bind("127.0.0.1:0").expect("a port is free");
        let client = TcpStream::connect(listener.local_addr().expect("it has one")).expect("it listens");
        client.set_read_timeout(Some(Duration::from_secs(20))).expect("it is above 0");
        (client, listener.accept().expect("one came").0)
    }

    #[test]
    fn a_worker_counts_its_connections() {
        let worker = worker();
        let (mut client, stream) = connected();
        worker.hand_over(stream).expect("the worker is there");
        assert_eq!(worker.load(), 1);
        client.write_all(b"PING\n").expect("it is open");
        client.read_exact(&mut [0; 7]).expect("there is a reply");
        assert_eq!(worker.load(), 1);
        drop(client);
        let is_free = || {
            thread::sleep(Duration::from_millis(10));
            worker.load() == 0
        };
        assert!((0..2_000).any(|_| is_free()));
    }

    #[test]
    fn connections_end_with_their_worker_and_a_worker_with_its_way() {
        let worker = worker();
        let (mut client, stream) = connected();
        worker.hand_over(stream).expect("the worker is there");
        client.write_all(b"PING\n").expect("it is open");
        client.read_exact(&mut [0; 7]).expect("there is a reply");
        drop(worker);
        assert_eq!(client.read(&mut [0]).expect("the end is no error"), 0);
    }
}
