//! The files that the command reads. Why one is not taken is said without its path.

use crate::failure::Failure;
use brothwagon::{Checkpoint, StudyFile, Tally};
use std::fs::{self, File};
use std::io::{self, ErrorKind, Read};
use std::path::Path;

/// The bytes of the largest checkpoint: 1,048,576 cells.
const LARGEST: usize = 13 + 72 * 1_048_576;

pub fn study(path: &str) -> Result<StudyFile, Failure> {
    let text = fs::read_to_string(path).map_err(Failure::unreadable)?;
    StudyFile::read(&text).map_err(Failure::unreadable)
}

pub fn checkpoint(path: &Path) -> Result<Checkpoint, Failure> {
    let file = bytes(path, LARGEST).map_err(Failure::unreadable)?;
    Ok(Checkpoint::read(&file)?)
}

/// The tally in that file, if the file is there.
pub fn tally(path: &Path) -> Result<Option<Tally>, Failure> {
    match bytes(path, Tally::BYTES) {
        Ok(file) => Ok(Some(Tally::read(&file)?)),
        // A checkpoint's name may be too long for its tally to have one.
        Err(why) if matches!(why.kind(), ErrorKind::NotFound | ErrorKind::InvalidFilename) => Ok(None),
        Err(why) => Err(Failure::unreadable(why)),
    }
}

/// The bytes of a file, and of one with more than `most` so many that this shows.
fn bytes(path: &Path, most: usize) -> io::Result<Vec<u8>> {
    let file = File::open(path)?;
    let bound = most as u64 + 1;
    // Without a guess at the length, there might be room for twice as many.
    let mut bytes = Vec::with_capacity(file.metadata()?.len().min(bound) as usize);
    file.take(bound).read_to_end(&mut bytes)?;
    Ok(bytes)
}
