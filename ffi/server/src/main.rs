//! `citrus_server [--strings] [--bind ADDRESS] [--port N] [--pairs N] [--workers N] [--connections N] [--timeout SECONDS]
//! [--waiter eer|domain|deer] [--keep N] [--salt N]`

use citrus_map::{Builder, Index, Waiter, LANES, MAX_HANDLES, MAX_PAIRS};
use citrus_server::files;
use citrus_server::server::{Limits, Server};
use std::process::ExitCode;
use std::thread::available_parallelism;
use std::time::Duration;

const USAGE: &str = "usage: citrus_server [--strings] [--bind ADDRESS] [--port N] [--pairs N] [--workers N] [--connections N] \
                     [--timeout SECONDS] [--waiter eer|domain|deer] [--keep N] [--salt N]";
/// Where the system doesn't say how many processors there are.
const SOME_WORKERS: usize = 4;
/// Above that the times of a worker's connections take it too long to look through.
const MAX_CONNECTIONS: usize = 1_000_000;

struct Options {
    /// Whether keys and values are any bytes, and else numbers.
    strings: bool,
    bind: String,
    port: u16,
    pairs: u32,
    workers: u32,
    /// What was asked for.
    connections: Option<usize>,
    idle: Option<Duration>,
    waiter: Waiter,
    /// What the library takes where nothing is said.
    keep: Option<u32>,
    /// Drawn where nothing is said.
    salt: Option<u64>,
}

impl Default for Options {
    fn default() -> Options {
        let processors = available_parallelism().map_or(SOME_WORKERS, |count| count.get());
        Options {
            strings: false,
            bind: "127.0.0.1".into(),
            port: 6380,
            pairs: 1_000_000,
            workers: u32::try_from(processors).map_or(MAX_HANDLES, |count| count.min(MAX_HANDLES)),
            connections: None,
            idle: Limits::default().idle,
            waiter: Waiter::Eer,
            keep: None,
            salt: None,
        }
    }
}

impl Options {
    fn of(mut words: impl Iterator<Item = String>) -> Option<Options> {
        let mut options = Options::default();
        while let Some(word) = words.next() {
            if word == "--strings" {
                options.strings = true;
                continue;
            }
            let value = words.next()?;
            match word.as_str() {
                "--bind" => options.bind = value,
                "--port" => options.port = value.parse().ok()?,
                "--pairs" => options.pairs = value.parse().ok()?,
                "--workers" => options.workers = value.parse().ok()?,
                "--connections" => options.connections = Some(value.parse().ok()?),
                "--timeout" => options.idle = Some(Duration::from_secs(value.parse().ok()?)).filter(|time| !time.is_zero()),
                "--waiter" => options.waiter = waiter(&value)?,
                "--keep" => options.keep = Some(value.parse().ok()?),
                "--salt" => options.salt = Some(value.parse().ok()?),
                _ => return None,
            }
        }
        Some(options)
    }

    /// As many as were asked for; or where nothing was said as many as usual, or as the open files allow.
    fn connections(&self) -> Result<usize, String> {
        let workers = self.workers as usize;
        let allowed = files::allowed().map_or(MAX_CONNECTIONS, |files| files::connections_of(files, workers));
        let connections = self.connections.unwrap_or_else(|| Limits::default().connections.min(allowed));
        if connections > allowed {
            let needed = files::needed(workers, connections);
            return Err(format!("{connections} connections need {needed} open files; the process may have fewer (ulimit -n {needed})"));
        }
        if !(1..=MAX_CONNECTIONS).contains(&connections) {
            return Err(format!("--connections is from 1 to {MAX_CONNECTIONS}, and there is one open file for each (ulimit -n)"));
        }
        Ok(connections)
    }

    fn builder(&self) -> Builder {
        let builder = Index::builder(self.pairs, self.workers).waiter(self.waiter);
        let builder = self.keep.map_or(builder, |keep| builder.keep(keep));
        self.salt.map_or(builder, |salt| builder.salt(salt))
    }

    /// Listens. Where keys are numbers each worker has lanes, as far as there are places for them.
    fn bind(&self, limits: Limits) -> Result<Server, String> {
        let (address, builder) = ((self.bind.as_str(), self.port), self.builder());
        let at = |error| format!("{}:{}: {error}", self.bind, self.port);
        if self.strings {
            return Server::bind_strings(address, builder, limits).map_err(at);
        }
        let lanes = self.workers.min((MAX_HANDLES - self.workers) / LANES);
        let index = builder.lanes(lanes).build().map_err(|error| error.to_string())?;
        Server::bind(address, index, limits).map_err(at)
    }

    /// A server whose index isn't full before it has so many pairs, and what it says of itself.
    fn server(&self) -> Result<(Server, String), String> {
        if !(1..=MAX_HANDLES).contains(&self.workers) {
            return Err(format!("--workers is from 1 to {MAX_HANDLES}"));
        }
        if !(1..=MAX_PAIRS).contains(&self.pairs) {
            return Err(format!("--pairs is from 1 to {MAX_PAIRS}"));
        }
        if matches!(self.keep, Some(1..=15)) {
            return Err("--keep is 0, or 16 or more".into());
        }
        let limits = Limits { connections: self.connections()?, idle: self.idle };
        let server = self.bind(limits)?;
        let address = server.address().map_err(|error| error.to_string())?;
        let Options { pairs, workers, .. } = self;
        let says =
            format!("citrus_server listens at {address}: up to {pairs} pairs and {} connections, {workers} workers", limits.connections);
        Ok((server, says))
    }
}

fn waiter(word: &str) -> Option<Waiter> {
    match word {
        "eer" => Some(Waiter::Eer),
        "domain" => Some(Waiter::Domain),
        "deer" => Some(Waiter::Deer),
        _ => None,
    }
}

fn main() -> ExitCode {
    let options = match Options::of(std::env::args().skip(1)) {
        Some(options) => options,
        None => {
            eprintln!("{USAGE}");
            return ExitCode::from(2);
        }
    };
    match options.server() {
        Ok((server, says)) => {
            println!("{says}");
            server.run()
        }
        Err(cause) => {
            eprintln!("citrus_server: {cause}");
            ExitCode::FAILURE
        }
    }
}
