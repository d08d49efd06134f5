//! Says on the error output, every few seconds, what is running and how far it is.

use std::time::{Duration, Instant};

pub struct Progress {
    what: &'static str,
    started: Instant,
    told: Instant,
}

impl Progress {
    pub fn new(what: &'static str) -> Progress {
        Progress { what, started: Instant::now(), told: Instant::now() }
    }

    /// Says it if nothing was said for a while.
    pub fn tell(&mut self, how_far: impl FnOnce() -> String) {
        if self.told.elapsed() >= Duration::from_secs(3) {
            self.told = Instant::now();
            eprintln!("  ... {}: {}, {} s", self.what, how_far(), self.started.elapsed().as_secs());
        }
    }

    pub fn seconds(&self) -> f64 {
        self.started.elapsed().as_secs_f64()
    }
}
