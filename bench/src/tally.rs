//! The tally of 1,024 by 1,024 cells: how long it takes on each level, against a plain read of the same bytes; and how long it
//! takes to write one entry beside it.

#[path = "../../compare/src/tallies/sums.rs"]
mod sums;

use crate::by_level::{self, Line, Work};
use crate::study::Study;
use brothwagon::ffi;
use std::hint::black_box;
use std::io;
use sums::Tally;

const STUDY: Study = Study { side: 1024, density: 1, kind: 0, forced: false };

/// The entries that are written at once.
const ENTRIES: usize = 100_000;

/// From one to the next: the golden ratio's part of all, so that they are spread out.
const STRIDE: usize = 5_832_499;

/// What is timed, as words to a worker, the read first.
const TIMED: [&str; 3] = ["read", "tally", "entries"];

/// The table: the titles, and a row for each level, timed in so many turns.
pub fn table(turns: u32) -> io::Result<Vec<[String; 4]>> {
    let titles = [format!("tally, {0} by {0}", STUDY.side), "read, ms".into(), "tally/read".into(), "write_entry, ns".into()];
    let row = |Line { level, times: [read, tally, entries] }| {
        let entry = entries * 1e6 / ENTRIES as f64;
        [level, format!("{read:.3}"), format!("{:.2}", tally / read), format!("{entry:.1}")]
    };
    Ok([titles].into_iter().chain(by_level::times("tally", TIMED, turns)?.into_iter().map(row)).collect())
}

/// What a worker has: the populations, their tally as it was worked out, and as the entries have moved it.
pub struct Tallied {
    settings: ffi::Settings,
    f: Vec<f64>,
    tally: Tally,
    moved: Tally,
}

impl Tallied {
    pub fn new() -> Tallied {
        let (settings, f) = (STUDY.settings(), STUDY.start());
        let moved = ffi::tally(&settings, &f).1;
        Tallied { settings, f, tally: moved, moved }
    }

    /// Writes entries all over the grid, each with its place as its pattern.
    fn write_entries(&mut self) {
        for turn in 0..ENTRIES {
            let at = turn * STRIDE % self.f.len();
            let (cell, direction) = (at % STUDY.cells(), at / STUDY.cells());
            let (x, y) = (cell % STUDY.side, cell / STUDY.side);
            assert_eq!(ffi::write_entry(&self.settings, x, y, direction, at as u64, &mut self.f, &mut self.moved), 0);
        }
    }
}

/// Looks at every word once, in order; the compiler keeps several sums, so memory is what limits it.
fn read(f: &[f64]) -> u64 {
    f.iter().fold(0, |seen, entry| seen ^ entry.to_bits())
}

impl Work for Tallied {
    fn act(&mut self, word: &str) -> bool {
        match word {
            "read" => drop(black_box(read(black_box(&self.f)))),
            "tally" => self.tally = ffi::tally(&self.settings, &self.f).1,
            "entries" => self.write_entries(),
            _ => return false,
        }
        true
    }

    /// Whether the tally worked out, and the one that the entries moved, are as the request has them.
    fn alike(&mut self) -> bool {
        let wanted = sums::tally(&self.f, STUDY.cells());
        self.act("tally") && self.tally == wanted && self.moved == wanted
    }
}
