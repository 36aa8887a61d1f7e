//! How many connections the open files allow that a process may have.

use std::fs;

/// Files beside connections and workers: the three of each process, the socket that listens, and a connection that is turned away, with some
/// to spare.
const OTHERS: usize = 16;
/// A worker has so many: what it waits by, and both ends of what wakes it.
const OF_A_WORKER: usize = 3;

/// How many files this process may have open at once, where the system has a limit.
pub fn allowed() -> Option<usize> {
    allowed_in(&fs::read_to_string("/proc/self/limits").ok()?)
}

/// The soft limit stands before the hard one.
fn allowed_in(limits: &str) -> Option<usize> {
    let line = limits.lines().find_map(|line| line.strip_prefix("Max open files"))?;
    line.split_whitespace().next()?.parse().ok()
}

/// So many files a server with these workers and connections may have open.
pub fn needed(workers: usize, connections: usize) -> usize {
    OTHERS + OF_A_WORKER * workers + connections
}

/// So many connections a server with these workers can have by so many files.
pub fn connections_of(files: usize, workers: usize) -> usize {
    files.saturating_sub(needed(workers, 0))
}

#[cfg(test)]
mod tests {
    use super::*;

    #[test]
    fn the_soft_limit_is_found() {
        let text = "Limit                     Soft Limit           Hard Limit           Units\n\
                    Max processes             63473                63473                processes\n\
                    Max open files            1024                 524288               files\n";
        assert_eq!(allowed_in(text), Some(1_024));
        assert_eq!(allowed_in("Max open files            unlimited            unlimited            files\n"), None);
        assert_eq!(allowed_in(""), None);
    }

    #[test]
    fn connections_are_what_workers_leave() {
        assert_eq!(connections_of(1_024, 4), 996);
        assert_eq!(needed(4, 996), 1_024);
        assert_eq!(connections_of(20, 4), 0);
    }
}
