//! What is told on standard error, now and then.

use std::sync::{Mutex, PoisonError};
use std::time::{Duration, Instant};

/// What happens often is told of once in so long.
const BETWEEN_WARNINGS: Duration = Duration::from_secs(60);

/// When one kind of thing was told of last.
#[derive(Debug, Default)]
pub(crate) struct Warnings {
    told: Mutex<Option<Instant>>,
}

impl Warnings {
    /// Says it, unless the like was said a short while ago.
    pub(crate) fn say(&self, text: impl FnOnce() -> String) {
        let mut told = self.told.lock().unwrap_or_else(PoisonError::into_inner);
        if told.map_or(true, |at| at.elapsed() >= BETWEEN_WARNINGS) {
            *told = Some(Instant::now());
            eprintln!("{}", text());
        }
    }
}

#[cfg(test)]
mod tests {
    use super::*;
    use std::cell::Cell;

    #[test]
    fn the_like_is_not_said_twice_in_a_short_while() {
        let (warnings, said) = (Warnings::default(), Cell::new(0));
        for _ in 0..3 {
            warnings.say(|| {
                said.set(said.get() + 1);
                "a test says this once".into()
            });
        }
        assert_eq!(said.get(), 1);
    }
}
