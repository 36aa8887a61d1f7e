//! The time by which keys go.

use std::time::{SystemTime, UNIX_EPOCH};

/// Milliseconds since the begin of 1970 by the system's clock, as Redis counts them: so a deadline is a moment that clients may name too.
pub fn now() -> u64 {
    SystemTime::now().duration_since(UNIX_EPOCH).map_or(0, |since| u64::try_from(since.as_millis()).unwrap_or(u64::MAX))
}
