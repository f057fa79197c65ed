//! Lines on standard error about long work: one a second, and one at the end.

use crate::say::note;
use std::time::{Duration, Instant};

pub struct Progress {
    command: &'static str,
    what: &'static str,
    all: u64,
    last: Instant,
}

impl Progress {
    pub fn new(command: &'static str, what: &'static str, all: u64) -> Progress {
        Progress { command, what, all, last: Instant::now() }
    }

    pub fn at(&mut self, done: u64) {
        if done == self.all || self.last.elapsed() >= Duration::from_secs(1) {
            self.last = Instant::now();
            note(&format!("{}: {done} of {} {}", self.command, self.all, self.what));
        }
    }
}
