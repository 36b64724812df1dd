//! A checkpoint file of 1,024 by 1,024 cells: how long it takes to write and to read one, on each level, against a plain copy
//! of the same bytes.

#[path = "../../compare/src/checkpoints/format.rs"]
mod format;

use crate::by_level::{self, Line, Work};
use crate::study::Study;
use brothwagon::ffi;
use format::Header;
use std::hint::black_box;
use std::io;

const STUDY: Study = Study { side: 1024, density: 1, kind: 0, forced: false };

/// What a file has before its entries.
const HEADER: Header = Header { nx: STUDY.side as u64, ny: STUDY.side as u64, step: 1_000_000 };

/// What is timed, as words to a worker, the copy first.
const TIMED: [&str; 3] = ["copy", "write", "read"];

/// The table: the titles, and a row for each level, timed in so many turns.
pub fn table(turns: u32) -> io::Result<Vec<[String; 4]>> {
    let titles = [format!("checkpoint, {0} by {0}", STUDY.side), "copy, ms".into(), "write/copy".into(), "read/copy".into()];
    let row = |Line { level, times: [copy, write, read] }| {
        [level, format!("{copy:.3}"), format!("{:.2}", write / copy), format!("{:.2}", read / copy)]
    };
    Ok([titles].into_iter().chain(by_level::times("checkpoint", TIMED, turns)?.into_iter().map(row)).collect())
}

/// What a worker has: the populations, their file, a copy of it, and what is read of it.
pub struct Checkpoint {
    settings: ffi::Settings,
    f: Vec<f64>,
    file: Vec<u8>,
    copy: Vec<u8>,
    read: Vec<f64>,
}

impl Checkpoint {
    pub fn new() -> Checkpoint {
        let f = STUDY.start();
        let (file, copy) = (vec![0; 13 + 8 * f.len()], vec![0; 13 + 8 * f.len()]);
        Checkpoint { settings: STUDY.settings(), read: vec![0.0; f.len()], f, file, copy }
    }
}

impl Work for Checkpoint {
    fn act(&mut self, word: &str) -> bool {
        match word {
            "copy" => black_box(&mut self.copy).copy_from_slice(black_box(&self.file)),
            "write" => assert_eq!(ffi::write_checkpoint(&self.settings, HEADER.step, &self.f, &mut self.file), 0),
            "read" => assert_eq!(ffi::read_checkpoint(&self.file, &mut self.read).0, 0),
            _ => return false,
        }
        true
    }

    /// Whether the file and its copy are as the format has them, and what was read as it was.
    fn alike(&mut self) -> bool {
        let (mut file, mut f) = (vec![0; self.file.len()], vec![0.0; self.f.len()]);
        let written = HEADER.write(&self.f, &mut file) == Ok(()) && file == self.file && file == self.copy;
        let same = |(f, g): (&f64, &f64)| f.to_bits() == g.to_bits();
        written && format::read(&self.file, &mut f) == Ok(HEADER) && f.iter().zip(&self.read).all(same)
    }
}
