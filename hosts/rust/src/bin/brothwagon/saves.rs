//! The checkpoints that a run saves, each with its tally.

use crate::answer::line;
use crate::failure::Failure;
use crate::options::{Every, Options};
use crate::progress::Progress;
use crate::{names, pair, whole};
use brothwagon::Study;
use std::fs;
use std::io::{self, ErrorKind, Write};
use std::path::{Path, PathBuf};

/// Where they go.
pub struct Saves<'a> {
    every: Option<&'a Every>,
    end: Option<&'a Path>,
}

impl<'a> Saves<'a> {
    pub fn of(options: &'a Options) -> Saves<'a> {
        Saves { every: options.every.as_ref(), end: options.save.as_deref().map(Path::new) }
    }

    /// Finds out before a run what would stop it later: a step number that the file has no room for, a name that cannot be
    /// written. Makes the folder if it is missing: the end may be saved there too.
    pub fn prepare(&self, first: u32, steps: u64) -> Result<(), Failure> {
        if (self.every.is_some() || self.end.is_some()) && steps > u64::from(u32::MAX - first) {
            let room = format!("a checkpoint's step number is at most {}", u32::MAX);
            return Err(Failure::Refused(format!("{steps} steps from step {first} on cannot be saved: {room}")));
        }
        if let Some(every) = self.every {
            prepare_folder(Path::new(&every.into))?;
        }
        self.end.map_or(Ok(()), pair::test)
    }

    /// Steps from this one to the next that is saved along the way, if there is one.
    pub fn ahead(&self, step: u64) -> Option<u64> {
        self.every.map(|every| every.steps - step % every.steps)
    }

    /// Saves a state along the way, if it is one to be saved.
    pub fn along(&self, study: &Study, step: u64, progress: &Progress) -> Result<(), Failure> {
        match self.every {
            Some(every) if step.is_multiple_of(every.steps) => save(study, step, &every.path(step), progress),
            _ => Ok(()),
        }
    }

    /// Saves the state at the end.
    pub fn end(&self, study: &Study, step: u64, progress: &Progress) -> Result<(), Failure> {
        self.end.map_or(Ok(()), |path| save(study, step, path, progress))
    }

    /// Says what was saved between these two steps.
    pub fn answer(&self, out: &mut impl Write, first: u64, last: u64) -> io::Result<()> {
        if let Some(Every { steps, into }) = self.every {
            line(out, "checkpoints", format!("{} in {into}", last / steps - first / steps))?;
        }
        self.end.map_or(Ok(()), |path| line(out, "saved as", path.display()))
    }
}

impl Every {
    fn path(&self, step: u64) -> PathBuf {
        Path::new(&self.into).join(names::along(step))
    }
}

fn prepare_folder(folder: &Path) -> Result<(), Failure> {
    let unsaved = |why| Failure::Unsaved(format!("nothing can be saved in {}: {why}", folder.display()));
    match fs::create_dir(folder) {
        Err(why) if why.kind() != ErrorKind::AlreadyExists => Err(unsaved(why)),
        _ => whole::test_folder(folder).map_err(unsaved),
    }
}

fn save(study: &Study, step: u64, path: &Path, progress: &Progress) -> Result<(), Failure> {
    progress.saving(path);
    let step = u32::try_from(step).expect("the last step number was tested");
    pair::write(path, &study.checkpoint_file(step)?, &study.tally()?.write()?)
}
