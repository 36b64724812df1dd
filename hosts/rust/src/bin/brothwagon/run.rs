//! `brothwagon run`: so many steps of a study.

use crate::answer::{line, state, title};
use crate::failure::Failure;
use crate::judged::judged;
use crate::options::Options;
use crate::progress::Progress;
use crate::saves::Saves;
use crate::start::Start;
use std::io::Write;
use std::time::{Duration, Instant};

pub fn run(options: &Options, mut start: Start, out: &mut impl Write) -> Result<(), Failure> {
    let steps = options.steps.unwrap_or(start.file.steps);
    // The library is asked even if there is no step to take: it may refuse the settings.
    start.study.ask_past(&start.file.obstacles)?;
    let saves = Saves::of(options);
    saves.prepare(start.step(), steps)?;
    let first = u64::from(start.step());
    let running = walk(&mut start, steps, &saves)?;

    judged(&start.study, first + steps, || {
        title(out, &options.study, &start.study)?;
        if !start.file.obstacles.is_empty() {
            line(out, "obstacle cells", start.file.obstacles.len())?;
        }
        line(out, "steps", steps)?;
        start.answer(out, steps)?;
        // A run of no steps takes no time.
        line(out, "steps per second", format!("{:.1}", steps as f64 / running.as_secs_f64().max(f64::MIN_POSITIVE)))?;
        state(out, &start.study)?;
        Ok(saves.answer(out, first, first + steps)?)
    })
}

/// Takes the steps, says how far it is, and saves what is to be saved: how long the steps alone took.
fn walk(start: &mut Start, steps: u64, saves: &Saves) -> Result<Duration, Failure> {
    let first = u64::from(start.step());
    let mut progress = Progress::of(steps);
    let mut running = Duration::ZERO;
    let mut done = 0;
    // The state after two runs is that after one of all their steps, so a long run may stop to say how far it is, or to save.
    while done < steps {
        let stretch = progress.next(done).min(saves.ahead(first + done).unwrap_or(u64::MAX));
        let began = Instant::now();
        start.study.run_past(&start.file.obstacles, stretch)?;
        running += began.elapsed();
        done += stretch;
        saves.along(&start.study, first + done, &progress)?;
    }
    saves.end(&start.study, first + steps, &progress)?;
    Ok(running)
}
