//! What is asked about checkpoint files, of the library and of the format's words.

use super::format::{self, Header, Refusal};
use super::shrink;
use crate::questions::Ask;
use crate::questions::lent::Lent;
use crate::questions::seen::{Call, Difference, Seen};
use crate::questions::shown;
use crate::questions::states::settings;
use brothwagon::ffi;
use std::fmt;

#[derive(Clone)]
pub enum Asked {
    /// One is written into so many lent bytes and, once it is, read back.
    Write { header: Header, f: Vec<f64>, room: usize },
    /// A file's sides are asked for, and it is read into so many lent entries.
    Read { file: Vec<u8>, room: usize },
}

impl Ask for Asked {
    fn compare(&self, past: usize) -> Result<Seen, Difference> {
        let mut seen = Seen::default();
        match self {
            Asked::Write { header, f, room } => {
                let mut file = Lent::canaries(*room, past);
                if seen.writes_checkpoint(header, f, &mut file)? == 0 {
                    seen.reads_checkpoint(file.part(), f.len())?;
                }
            }
            Asked::Read { file, room } => seen.reads_checkpoint(Lent::of(file, past).part(), *room)?,
        }
        Ok(seen)
    }

    fn size(&self) -> (u128, usize) {
        shrink::size(self)
    }

    fn simpler(&self) -> Box<dyn Iterator<Item = Asked> + '_> {
        shrink::simpler(self)
    }
}

impl Seen {
    fn writes_checkpoint(&mut self, header: &Header, f: &[f64], file: &mut Lent<u8>) -> Result<u32, Difference> {
        let settings = settings((header.nx, header.ny));
        let mut wanted = file.clone();
        let refused = header.write(f, wanted.part());
        let number = ffi::write_checkpoint(&settings, header.step, f, file.part());
        self.answers(Call::WriteCheckpoint, refused.map(|()| []).map_err(number_of), (number, []))?;
        self.same("byte", &wanted, file)?;
        Ok(number)
    }

    fn reads_checkpoint(&mut self, file: &[u8], room: usize) -> Result<(), Difference> {
        self.answers(Call::CheckpointSides, words(Header::read(file)), ffi::checkpoint_sides(file))?;
        let mut got = Lent::canaries(room, 0);
        let mut wanted = got.clone();
        let answer = words(format::read(file, wanted.part()));
        self.answers(Call::ReadCheckpoint, answer, ffi::read_checkpoint(file, got.part()))?;
        self.same("entry", &wanted, &got)
    }
}

fn number_of(refusal: Refusal) -> u32 {
    refusal as u32
}

fn words(read: Result<Header, Refusal>) -> Result<[u64; 3], u32> {
    read.map(|Header { nx, ny, step }| [nx, ny, step.into()]).map_err(number_of)
}

impl fmt::Display for Asked {
    fn fmt(&self, out: &mut fmt::Formatter) -> fmt::Result {
        let (what, file) = match self {
            Asked::Write { header, f, room } => {
                let Header { nx, ny, step } = header;
                let entries = f.len();
                (format!("a state of {nx} by {ny}, step {step}, {entries} entries, into {room} bytes"), header.file(f))
            }
            Asked::Read { file, room } => (format!("a file of {} bytes, into {room} entries", file.len()), file.clone()),
        };
        write!(out, "{what}\n  {}", shown::bytes(&file, &[4, 1, 2, 2, 4]))
    }
}
