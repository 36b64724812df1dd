//! A checkpoint and the tally beside it.

use crate::failure::Failure;
use crate::whole::{self, Written};
use crate::{names, read};
use brothwagon::{Checkpoint, Tally};
use std::path::{Path, PathBuf};

/// A checkpoint that was read, and the tally beside it if there is one.
pub struct Pair {
    pub checkpoint: Checkpoint,
    pub tally: Option<Tally>,
}

/// The file of a pair that is wrong, and why.
pub struct Fault {
    pub file: PathBuf,
    pub why: Failure,
}

impl Pair {
    /// Reads a checkpoint, and its tally if there is one, to which the state is held.
    pub fn read(path: &Path) -> Result<Pair, Fault> {
        let [file, beside] = both(path);
        if let Some(checkpoint) = file.to_str().and_then(names::tallied) {
            let why = format!("this is a tally's name; that of its checkpoint is {checkpoint}");
            return Err(Fault::of(path, Failure::Unreadable(why)));
        }
        Pair::seen(path, &beside, || Pair::look(path, &beside))
    }

    /// The pair that a look finds, if the state fits the tally, or that a second one finds: where a run is replacing the pair, the
    /// first may meet one old file and one new. What cannot be read is not read again, for a pipe would be empty by then.
    fn seen(path: &Path, beside: &Path, mut look: impl FnMut() -> Result<Pair, Fault>) -> Result<Pair, Fault> {
        let held = |pair: Pair| pair.held(beside).map_err(|why| Fault::of(path, why));
        let first = look()?;
        held(first).or_else(|_| look().and_then(held))
    }

    fn look(path: &Path, beside: &Path) -> Result<Pair, Fault> {
        let checkpoint = read::checkpoint(path).map_err(|why| Fault::of(path, why))?;
        let tally = read::tally(beside).map_err(|why| Fault::of(beside, why))?;
        Ok(Pair { checkpoint, tally })
    }

    /// The pair, if the state fits the tally.
    fn held(self, beside: &Path) -> Result<Pair, Failure> {
        let Some(tally) = self.tally else { return Ok(self) };
        let differ = match &tally.differing_planes(&self.checkpoint.tally()?)[..] {
            [] => return Ok(self),
            [plane] => format!("plane {plane} differs"),
            planes if planes.len() == 9 => "all planes differ".to_string(),
            [planes @ .., last] => {
                let planes: Vec<String> = planes.iter().map(usize::to_string).collect();
                format!("planes {} and {last} differ", planes.join(", "))
            }
        };
        Err(Failure::Refused(format!("the state does not fit {}: {differ}", beside.display())))
    }

    /// What an answer says of the tally.
    pub fn said(&self) -> &'static str {
        if self.tally.is_some() { "fits" } else { "none" }
    }
}

impl Fault {
    pub fn of(file: &Path, why: Failure) -> Fault {
        Fault { file: file.to_path_buf(), why }
    }
}

impl From<Fault> for Failure {
    fn from(Fault { file, why }: Fault) -> Failure {
        why.about(file.display())
    }
}

/// Puts a checkpoint and its tally under their names, in place of those that were there. If that fails, or the process is killed,
/// a checkpoint may be left without its tally, and never with another's.
pub fn write(path: &Path, checkpoint: &[u8], tally: &[u8]) -> Result<(), Failure> {
    let [path, beside] = &both(path);
    let (unsaved, untallied) = (|why| Failure::unsaved(path, why), |why| Failure::unsaved(beside, why));
    let checkpoint = Written::new(path, checkpoint).map_err(unsaved)?;
    let tally = Written::new(beside, tally).map_err(untallied)?;
    whole::remove(beside).map_err(untallied)?;
    checkpoint.rename().map_err(unsaved)?;
    tally.rename().map_err(untallied)
}

/// Whether a checkpoint and its tally can be put under their names.
pub fn test(path: &Path) -> Result<(), Failure> {
    both(path).iter().try_for_each(|path| whole::test(path).map_err(|why| Failure::unsaved(path, why)))
}

/// The files of a checkpoint and of its tally. Where a name is a link, both are those that it leads to, so that a file has one
/// tally by whatever name.
fn both(path: &Path) -> [PathBuf; 2] {
    let file = whole::behind(path);
    let beside = names::tally_of(&file);
    [file, beside]
}

#[cfg(test)]
mod tests {
    use super::*;

    /// What is seen of a state beside these tallies of others, one at each look; none for a look that finds nothing to read.
    fn seen(beside: &[Option<f64>]) -> (bool, usize) {
        let state = |entry| Checkpoint::new(1, 1, 0, vec![entry; 9]).unwrap();
        let mut looks = 0;
        let pair = Pair::seen(Path::new("a"), Path::new("a.tally"), || {
            looks += 1;
            let other = beside[looks - 1].ok_or_else(|| Fault::of(Path::new("a"), Failure::unreadable("gone")))?;
            Ok(Pair { checkpoint: state(1.0), tally: Some(state(other).tally().unwrap()) })
        });
        (pair.is_ok(), looks)
    }

    #[test]
    fn a_state_that_does_not_fit_is_looked_at_once_more() {
        assert_eq!(seen(&[Some(1.0)]), (true, 1));
        assert_eq!(seen(&[Some(2.0), Some(1.0)]), (true, 2));
        assert_eq!(seen(&[Some(2.0), Some(2.0)]), (false, 2));
        assert_eq!(seen(&[Some(2.0), None]), (false, 2));
        assert_eq!(seen(&[None]), (false, 1));
    }
}
