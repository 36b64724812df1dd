//! How far a long comparison is, on a terminal.

use std::io::{IsTerminal, Write, stderr};
use std::time::{Duration, Instant};

pub struct Progress {
    began: Instant,
    next: Duration,
}

impl Progress {
    pub fn new() -> Progress {
        Progress { began: Instant::now(), next: Duration::from_secs(1) }
    }

    /// Says so each second.
    pub fn show(&mut self, so_far: impl FnOnce() -> String) {
        if self.began.elapsed() < self.next {
            return;
        }
        self.next = self.began.elapsed() + Duration::from_secs(1);
        if stderr().is_terminal() {
            // Progress that cannot be shown is no reason to stop.
            let _ = write!(stderr(), "\r\x1b[K{}\r", so_far());
        }
    }
}
