//! `brothwagon steady`: steps of a study until the velocities settle.

use crate::answer::{exact, line, state, title};
use crate::failure::Failure;
use crate::judged::judged;
use crate::options::Options;
use crate::progress::Progress;
use crate::saves::Saves;
use crate::start::Start;
use brothwagon::{Refusal, Study};
use std::io::Write;
use std::time::Instant;

pub fn steady(options: &Options, mut start: Start, out: &mut impl Write) -> Result<(), Failure> {
    let file = &start.file;
    // Their call comes after each step, and the library takes all steps of a steady run by itself.
    if !file.obstacles.is_empty() {
        let why = "a steady run knows no obstacles, and this study has some; `run` takes its steps past them";
        return Err(Failure::Refused(why.to_string()));
    }
    let saves = Saves::of(options);
    saves.prepare(start.step(), file.steps)?;
    let began = Instant::now();
    let end = start.study.run_to_steady_state(file.tolerance, file.steps, file.check_every);
    let end = end.map_err(|refusal| refused(refusal, &start.study))?;
    let seconds = began.elapsed().as_secs_f64();
    let first = u64::from(start.step());
    saves.end(&start.study, first + end.steps, &Progress::of(end.steps))?;

    // The steps may run out between two checks.
    judged(&start.study, first + end.steps, || {
        title(out, &options.study, &start.study)?;
        line(out, if end.settled { "settled, steps" } else { "ran out, steps" }, end.steps)?;
        start.answer(out, end.steps)?;
        line(out, "residual", exact(end.residual))?;
        line(out, "steps per second", format!("{:.1}", end.steps as f64 / seconds))?;
        state(out, &start.study)?;
        Ok(saves.answer(out, first, first + end.steps)?)
    })
}

/// A bad snapshot is said with its first bad cell: the study is left in that state.
fn refused(refusal: Refusal, study: &Study) -> Failure {
    match (refusal, study.first_bad_cell()) {
        (Refusal::BadSnapshot { .. }, Ok(Some(cell))) => Failure::ruined(refusal, cell),
        _ => refusal.into(),
    }
}
