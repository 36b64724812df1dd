//! Compares the library with the words of the tally: on populations and their entries, on streaming, and on tally files.

mod asked;
mod faults;
mod made_up;
mod rule;
mod shrink;
mod sums;
mod sweeps;

use crate::questions::Part;
use crate::questions::seen::{Call, Met};
use asked::Asked;

pub const TALLIES: Part<Asked> = Part {
    word: "--tallies",
    name: "questions about tallies",
    sweeps: &sweeps::SWEEPS,
    made_up: made_up::asked,
    answers: &[
        (Call::Tally, &[0, 1, 2]),
        (Call::WriteEntry, &[0, 1, 2, 6]),
        (Call::WriteTally, &[0, 17, 2]),
        (Call::ReadTally, &[0, 12, 13, 15, 17, 2]),
    ],
    // That a lossless grid changes the sum would be a difference.
    others: &[
        Met::Streamed { lossless: true, kept: true },
        Met::Streamed { lossless: false, kept: true },
        Met::Streamed { lossless: false, kept: false },
    ],
};
