//! Whether the state that an answer is about is ruined.

use crate::failure::Failure;
use brothwagon::Study;

/// Says the answer about a state, and fails if the state is ruined, whatever became of the answer.
pub fn judged(study: &Study, step: u64, say: impl FnOnce() -> Result<(), Failure>) -> Result<(), Failure> {
    let Some(cell) = study.first_bad_cell()? else { return say() };
    let why = "a cell has a density or a velocity component that is not finite";
    let ruined = Failure::ruined(format!("the state at step {step} is ruined: {why}"), cell);
    Err(ruined.beside(say()))
}
