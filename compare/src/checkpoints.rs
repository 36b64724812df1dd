//! Compares the library with the words of the checkpoint file: on states that are written, and on files that are read.

mod asked;
mod faults;
pub mod format;
mod made_up;
mod shrink;
mod sweeps;

use crate::questions::Part;
use crate::questions::seen::Call;
use asked::Asked;

pub const CHECKPOINTS: Part<Asked> = Part {
    word: "--checkpoints",
    name: "checkpoint files",
    sweeps: &sweeps::SWEEPS,
    made_up: made_up::asked,
    answers: &[
        (Call::WriteCheckpoint, &[0, 1, 2]),
        (Call::CheckpointSides, &[0, 12, 13, 14, 1, 15]),
        (Call::ReadCheckpoint, &[0, 12, 13, 14, 1, 15, 2]),
    ],
    others: &[],
};
