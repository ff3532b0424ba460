//! A line now and then on standard error, while many cases are run.

use std::time::{Duration, Instant};

pub struct Progress {
    what: &'static str,
    wanted: u64,
    told: Instant,
}

impl Progress {
    pub fn new(what: &'static str, wanted: u64) -> Self {
        Self { what, wanted, told: Instant::now() }
    }

    /// Says how many are done, where nothing was said for ten seconds.
    pub fn done(&mut self, count: u64) {
        if count.is_multiple_of(1024) && self.told.elapsed() > Duration::from_secs(10) {
            self.told = Instant::now();
            eprintln!("{}: {count} of {}", self.what, self.wanted);
        }
    }
}
