//! What a run starts from.

use crate::answer::line;
use crate::failure::Failure;
use crate::options::Options;
use crate::pair::Pair;
use crate::read;
use brothwagon::{Checkpoint, OtherSides, Study, StudyFile};
use std::io::{self, Write};

/// A study at its start, or where a checkpoint has it.
pub struct Start {
    pub file: StudyFile,
    pub study: Study,
    from: Option<From>,
}

/// The checkpoint that a run started from.
struct From {
    step: u32,
    /// What is said of its tally.
    tally: &'static str,
}

impl Start {
    pub fn of(options: &Options) -> Result<Start, Failure> {
        let file = read::study(&options.study).map_err(|failure| failure.about(&options.study))?;
        let (study, from) = match &options.from {
            None => (file.started().map_err(Failure::from), None),
            Some(path) => {
                let pair = Pair::read(path.as_ref())?;
                let from = From { step: pair.checkpoint.step(), tally: pair.said() };
                (loaded(&file, pair.checkpoint, path), Some(from))
            }
        };
        Ok(Start { study: study.map_err(|failure| failure.about(&options.study))?, file, from })
    }

    /// The number of the step that the study is at.
    pub fn step(&self) -> u32 {
        self.from.as_ref().map_or(0, |from| from.step)
    }

    /// Says, of so many steps from a checkpoint, from where to where they went, and whether it had a tally.
    pub fn answer(&self, out: &mut impl Write, steps: u64) -> io::Result<()> {
        let Some(From { step, tally }) = self.from else { return Ok(()) };
        line(out, "from step", step)?;
        line(out, "from tally", tally)?;
        line(out, "to step", u64::from(step) + steps)
    }
}

fn loaded(file: &StudyFile, checkpoint: Checkpoint, path: &str) -> Result<Study, Failure> {
    let mut study = Study::new(file.settings)?;
    study.load(checkpoint).map_err(|OtherSides { has, given }| {
        let (study, state) = (format!("{} by {}", has.0, has.1), format!("{} by {}", given.0, given.1));
        Failure::Refused(format!("the study is {study}, and {path} holds a state of {state}"))
    })?;
    Ok(study)
}
