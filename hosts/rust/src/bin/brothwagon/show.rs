//! `brothwagon show`: what a checkpoint holds.

use crate::answer::{exact, line, state, title};
use crate::failure::Failure;
use crate::judged::judged;
use crate::options::Shown;
use crate::pair::Pair;
use brothwagon::{Settings, Study};
use std::io::Write;

pub fn show(words: &[&str], out: &mut impl Write) -> Result<(), Failure> {
    let Shown { file: path, given, floor } = Shown::read(words)?;
    let pair = Pair::read(path.as_ref())?;
    let (tally, checkpoint) = (pair.said(), pair.checkpoint);
    let (nx, ny) = checkpoint.sides();
    let step = checkpoint.step();
    // A checkpoint has no settings but its sides: of the others, the density asks for none, and the velocity for the force and
    // the floor.
    let mut study = Study::new(Settings { floor, ..Settings::new(nx, ny, 1.0) })?;
    study.load(checkpoint).expect("the study has the checkpoint's sides");
    // A floor that no reading takes is the option's fault, not the file's.
    if let Some(word) = given {
        study.velocity(0, 0).map_err(|refusal| Failure::from(refusal).about(format_args!("--floor {word}")))?;
    }
    let said = judged(&study, step.into(), || {
        title(out, path, &study)?;
        line(out, "step", step)?;
        line(out, "tally", tally)?;
        if given.is_some() {
            line(out, "floor", exact(floor))?;
        }
        state(out, &study)
    });
    said.map_err(|failure| failure.about(path))
}
