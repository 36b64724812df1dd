//! How far a run or a check is, on a terminal.

use std::fmt::Display;
use std::io::{IsTerminal, Write, stderr};
use std::path::Path;
use std::time::Instant;

/// The most steps that the library takes in one run.
const MOST: u64 = 1_000_000;

/// How often a run's line is written, in seconds.
const EVERY: f64 = 0.1;

/// How far a run is.
pub struct Progress {
    steps: u64,
    began: Instant,
    said: Instant,
    line: Line,
}

impl Progress {
    pub fn of(steps: u64) -> Progress {
        let now = Instant::now();
        Progress { steps, began: now, said: now, line: Line::new() }
    }

    /// Shows how far the run is, unless it has just done so, and says how many steps to take until the next time.
    pub fn next(&mut self, done: u64) -> u64 {
        let rate = done as f64 / self.began.elapsed().as_secs_f64();
        if self.said.elapsed().as_secs_f64() > EVERY / 2.0 {
            self.line.show(format_args!("{done} of {} steps, {rate:.1} a second", self.steps));
            self.said = Instant::now();
        }
        ((rate * EVERY) as u64).clamp(1, MOST).min(self.steps - done)
    }

    /// Shows that a file is being saved.
    pub fn saving(&self, path: &Path) {
        self.line.show(format_args!("saving {}", path.file_name().unwrap_or_default().display()));
    }
}

/// How far a check is.
pub struct Checking {
    all: usize,
    began: Instant,
    done: usize,
    bytes: u64,
    line: Line,
}

impl Checking {
    pub fn of(all: usize) -> Checking {
        Checking { all, began: Instant::now(), done: 0, bytes: 0, line: Line::new() }
    }

    /// Shows how far the check is.
    pub fn show(&self) {
        self.line.show(self.said(self.began.elapsed().as_secs_f64()));
    }

    /// How far it is after so many seconds.
    fn said(&self, seconds: f64) -> String {
        format!("{} of {} checked, {:.1} MB a second", self.done, self.all, self.bytes as f64 / 1e6 / seconds)
    }

    /// Counts a file of so many bytes, and takes the line away: one of the answer may follow.
    pub fn add(&mut self, bytes: u64) {
        self.done += 1;
        self.bytes += bytes;
        self.line.show("");
    }
}

/// The last line of the terminal, if standard error is one.
struct Line {
    shown: bool,
}

impl Line {
    fn new() -> Line {
        Line { shown: stderr().is_terminal() }
    }

    fn show(&self, said: impl Display) {
        if self.shown {
            let mut err = stderr();
            // Progress that cannot be shown is no reason to stop.
            let _ = write!(err, "\r\x1b[K{said}").and_then(|()| err.flush());
        }
    }
}

impl Drop for Line {
    /// Takes the line away, also before a failure is said.
    fn drop(&mut self) {
        self.show("");
    }
}

#[cfg(test)]
mod tests {
    use super::*;

    #[test]
    fn a_check_says_how_far_it_is() {
        let mut checking = Checking::of(12);
        checking.add(100_000_000);
        checking.add(50_000_000);
        assert_eq!(checking.said(1.5), "2 of 12 checked, 100.0 MB a second");
    }
}
