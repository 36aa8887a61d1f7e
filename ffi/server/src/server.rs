//! Connections are taken in one thread, and each is handed over to the worker that has the fewest.

use crate::census::Census;
use crate::pairs::Keeper;
use crate::replies::Replies;
use crate::store::Store;
use crate::strings::StringStore;
use crate::system::let_wait;
use crate::warnings::Warnings;
use crate::worker::Inbox;
use citrus_map::{Builder, Error, Index};
use std::io::{self, ErrorKind, Read, Write};
use std::net::{Shutdown, SocketAddr, TcpListener, TcpStream, ToSocketAddrs};
use std::sync::Arc;
use std::thread;
use std::time::Duration;

/// So long no connection is taken where the system couldn't take one.
const REST: Duration = Duration::from_millis(10);
/// So many connections may wait until they are taken.
const QUEUE: u16 = 4_096;

/// What a server bears.
#[derive(Clone, Copy, Debug, PartialEq, Eq)]
pub struct Limits {
    /// So many connections at once. Each is an open file: see [`files`](crate::files).
    pub connections: usize,
    /// A connection that sends no whole request for so long is ended, and one whose client takes no reply for so long. Nothing stands for
    /// ever.
    pub idle: Option<Duration>,
}

impl Default for Limits {
    fn default() -> Limits {
        Limits { connections: 10_000, idle: Some(Duration::from_secs(300)) }
    }
}

/// A server that listens. Its workers end with it.
#[derive(Debug)]
pub struct Server {
    listener: TcpListener,
    workers: Vec<Inbox>,
    census: Arc<Census>,
    /// Of connections that couldn't be taken.
    warnings: Warnings,
}

impl Server {
    /// Listens at the address, with a worker for each handle of the index that nobody has. Nobody else may update the index, and what it has
    /// already are values below 2^64 - 2^56.
    ///
    /// # Errors
    /// What the system says to the address, or to one more thread or file. Where all handles are out, and where the pairs of the index
    /// can't be counted.
    pub fn bind(address: impl ToSocketAddrs, index: Index, limits: Limits) -> io::Result<Server> {
        Server::start(address, limits, || Store::all(&index))
    }

    /// Listens at the address, and keeps keys and values of any bytes, in a map of what the builder says, with a worker for each handle.
    ///
    /// # Errors
    /// As [`bind`](Server::bind), and where the map can't be made.
    pub fn bind_strings(address: impl ToSocketAddrs, builder: Builder, limits: Limits) -> io::Result<Server> {
        Server::start(address, limits, || StringStore::all(builder))
    }

    fn start<S: Keeper + Send + 'static>(
        address: impl ToSocketAddrs,
        limits: Limits,
        stores: impl FnOnce() -> Result<Vec<S>, Error>,
    ) -> io::Result<Server> {
        let listener = TcpListener::bind(address)?;
        let_wait(&listener, QUEUE)?;
        let stores = stores().map_err(|error| io::Error::new(ErrorKind::Other, error))?;
        let census = Arc::new(Census::new(stores.len(), listener.local_addr()?.port(), limits.connections));
        let of_http = Arc::new(Warnings::default());
        let inboxes = stores.into_iter().map(|store| Inbox::start(store, Arc::clone(&census), limits.idle, Arc::clone(&of_http)));
        let workers = inboxes.collect::<io::Result<Vec<_>>>()?;
        if workers.is_empty() {
            return Err(io::Error::new(ErrorKind::Other, Error::NoHandle));
        }
        Ok(Server { listener, workers, census, warnings: Warnings::default() })
    }

    /// Where it listens: the port is the system's choice where none was asked for.
    ///
    /// # Errors
    /// What the system says.
    pub fn address(&self) -> io::Result<SocketAddr> {
        self.listener.local_addr()
    }

    /// Serves until the process ends.
    pub fn run(&self) -> ! {
        loop {
            match self.listener.accept() {
                Ok((stream, _)) => self.welcome(stream),
                Err(error) => {
                    self.warnings.say(|| format!("a connection couldn't be taken: {error}"));
                    thread::sleep(REST);
                }
            }
        }
    }

    /// Gives the connection to a worker, or tells it why it has none. This thread alone adds connections.
    fn welcome(&self, stream: TcpStream) {
        if self.census.connections() >= self.census.most {
            return turn_away(&stream, "ERR max number of clients reached");
        }
        let handed_over = match self.workers.iter().min_by_key(|worker| worker.load()) {
            Some(worker) => worker.hand_over(stream),
            None => Err(stream),
        };
        if let Err(stream) = handed_over {
            turn_away(&stream, "ERR no worker is left for this connection");
        }
    }
}

/// Tells a client why it isn't served. It waits for nothing, since other clients are to be welcomed.
fn turn_away(mut stream: &TcpStream, cause: &str) {
    let mut replies = Replies::default();
    replies.error(cause);
    let told = stream.set_nonblocking(true).and_then(|()| stream.write_all(replies.unsent()));
    // The client is gone where it can't be told.
    if told.and_then(|()| stream.shutdown(Shutdown::Write)).is_ok() {
        let _ = stream.read(&mut [0; 4096]);
    }
}
