//! What is asked about tallies, of the library and of the request's words.

use super::rule::{self, Refusal};
use super::shrink;
use super::sums::{self, Tally};
use crate::questions::Ask;
use crate::questions::lent::Lent;
use crate::questions::seen::{Call, Difference, Met, Seen};
use crate::questions::shown;
use crate::questions::states::settings;
use brothwagon::ffi;
use std::fmt;

#[derive(Clone)]
pub enum Asked {
    /// The tally of populations is worked out.
    Tally { sides: (u64, u64), f: Vec<f64> },
    /// Entries of populations are written, beside these ten numbers or beside the populations' own tally.
    Entries { sides: (u64, u64), f: Vec<f64>, beside: Option<Tally>, list: Vec<Entry> },
    /// Post-collision populations are streamed with faces of these kinds, and both are tallied.
    Stream { sides: (u64, u64), kinds: [u64; 4], post: Vec<f64> },
    /// A tally's file is written into so many lent bytes and, once it is, read back.
    Write { tally: Tally, room: usize },
    /// A file is read into so many lent numbers.
    Read { file: Vec<u8>, room: usize },
}

/// One entry that is written.
#[derive(Clone, Copy)]
pub struct Entry {
    /// Its x, y and direction.
    pub place: [usize; 3],
    pub pattern: u64,
    /// The sides that the settings have.
    pub sides: Sides,
    /// Entries that the populations are lent with too many.
    pub extra: isize,
}

#[derive(Clone, Copy, Debug, PartialEq, Eq)]
pub enum Sides {
    Right,
    /// The grid's, in each other's place: a grid of as many cells.
    Turned,
    /// No grid's.
    Wrong(u64, u64),
}

impl Ask for Asked {
    fn compare(&self, past: usize) -> Result<Seen, Difference> {
        let mut seen = Seen::default();
        match self {
            Asked::Tally { sides, f } => drop(seen.tallies(&settings(*sides), &mut Lent::of(f, past))?),
            Asked::Entries { sides, f, beside, list } => seen.enters(*sides, Lent::of(f, past), *beside, list)?,
            Asked::Stream { sides, kinds, post } => seen.streams(*sides, *kinds, Lent::of(post, past))?,
            Asked::Write { tally, room } => seen.writes_tally(Lent::of(tally, past), Lent::canaries(*room, past))?,
            Asked::Read { file, room } => seen.reads_tally(Lent::of(file, past), Lent::canaries(*room, past))?,
        }
        Ok(seen)
    }

    fn size(&self) -> (u128, usize) {
        shrink::size(self)
    }

    fn simpler(&self) -> Box<dyn Iterator<Item = Asked> + '_> {
        shrink::simpler(self)
    }
}

fn ten(numbers: &mut Lent<u64>) -> &mut Tally {
    numbers.part().try_into().expect("a tally has ten numbers")
}

fn bare(refused: Result<(), Refusal>) -> Result<[u64; 0], u32> {
    refused.map(|()| []).map_err(|refusal| refusal as u32)
}

impl Seen {
    fn tallies(&mut self, settings: &ffi::Settings, f: &mut Lent<f64>) -> Result<Tally, Difference> {
        let mut wanted = f.clone();
        let tally = rule::tally((settings.nx, settings.ny), wanted.part()).map_err(|refusal| refusal as u32);
        let got = ffi::tally(settings, f.part());
        self.answers(Call::Tally, tally, got)?;
        self.same("entry", &wanted, f)?;
        Ok(got.1)
    }

    fn enters(&mut self, sides: (u64, u64), mut f: Lent<f64>, beside: Option<Tally>, list: &[Entry]) -> Result<(), Difference> {
        let afresh = |f: &[f64]| sums::tally(f, f.len() / 9);
        let mut tally = Lent::of(&beside.unwrap_or_else(|| afresh(f.part())), 0);
        let (mut wanted, mut moved) = (f.clone(), tally.clone());
        for &Entry { place, pattern, sides: which, extra } in list {
            let sides = which.of(sides);
            let refused = rule::write_entry(sides, place, pattern, wanted.longer(extra), ten(&mut moved));
            if beside.is_none() {
                *ten(&mut moved) = afresh(wanted.part());
            }
            let [x, y, direction] = place;
            let number = ffi::write_entry(&settings(sides), x, y, direction, pattern, f.longer(extra), ten(&mut tally));
            self.answers(Call::WriteEntry, bare(refused), (number, []))?;
            self.same("entry", &wanted, &f)?;
            self.same("tally number", &moved, &tally)?;
        }
        Ok(())
    }

    fn streams(&mut self, (nx, ny): (u64, u64), kinds: [u64; 4], mut post: Lent<f64>) -> Result<(), Difference> {
        let [x_min, x_max, y_min, y_max] = kinds.map(|kind| ffi::Face { kind, ..ffi::Face::default() });
        let settings = ffi::Settings { x_min, x_max, y_min, y_max, ..settings((nx, ny)) };
        let mut f = Lent::canaries(post.part().len(), 0);
        let streamed = ffi::stream_with_faces(&settings, post.part(), f.part());
        let (asked, [lossless, ..]) = ffi::lossless(&settings);
        if (streamed, asked) != (0, 0) {
            return Err(format!("streaming answers {streamed}, the lossless question {asked}, and both should answer 0"));
        }
        let (before, after) = (self.tallies(&settings, &mut post)?[0], self.tallies(&settings, &mut f)?[0]);
        let (lossless, kept) = (lossless == 1, before == after);
        if lossless && !kept {
            return Err(format!("the grid is lossless, and streaming changes the sum from {before:#x} to {after:#x}"));
        }
        self.met.push(Met::Streamed { lossless, kept });
        Ok(())
    }

    fn writes_tally(&mut self, mut tally: Lent<u64>, mut file: Lent<u8>) -> Result<(), Difference> {
        let (mut lent, mut wanted) = (tally.clone(), file.clone());
        let refused = rule::write(ten(&mut lent), wanted.part());
        let number = ffi::write_tally(ten(&mut tally), file.part());
        self.answers(Call::WriteTally, bare(refused), (number, []))?;
        self.same("byte", &wanted, &file)?;
        self.same("tally number", &lent, &tally)?;
        if number == 0 { self.reads_tally(file, Lent::canaries(10, 0)) } else { Ok(()) }
    }

    fn reads_tally(&mut self, mut file: Lent<u8>, mut tally: Lent<u64>) -> Result<(), Difference> {
        let (mut lent, mut wanted) = (file.clone(), tally.clone());
        let refused = rule::read(lent.part(), wanted.part());
        let number = ffi::read_tally(file.part(), tally.part());
        self.answers(Call::ReadTally, bare(refused), (number, []))?;
        self.same("tally number", &wanted, &tally)?;
        self.same("byte", &lent, &file)
    }
}

impl Sides {
    fn of(self, (nx, ny): (u64, u64)) -> (u64, u64) {
        match self {
            Sides::Right => (nx, ny),
            Sides::Turned => (ny, nx),
            Sides::Wrong(nx, ny) => (nx, ny),
        }
    }
}

impl fmt::Display for Entry {
    fn fmt(&self, out: &mut fmt::Formatter) -> fmt::Result {
        let Entry { place: [x, y, direction], pattern, sides, extra } = self;
        write!(out, "({x}, {y}, {direction}) is to be {pattern:016x}; sides {sides:?}, entries too many {extra}")
    }
}

impl fmt::Display for Asked {
    fn fmt(&self, out: &mut fmt::Formatter) -> fmt::Result {
        let of = |(nx, ny): &(u64, u64), f: &[f64]| format!("{nx} by {ny}, {} entries\n  {}", f.len(), shown::patterns(f));
        match self {
            Asked::Tally { sides, f } => write!(out, "the tally of {}", of(sides, f)),
            Asked::Entries { sides, f, beside, list } => {
                write!(out, "entries written on {}", of(sides, f))?;
                match beside {
                    Some(numbers) => write!(out, "\n  beside {numbers:x?}")?,
                    None => write!(out, "\n  beside their own tally")?,
                }
                list.iter().try_for_each(|entry| write!(out, "\n  {entry}"))
            }
            Asked::Stream { sides, kinds, post } => {
                write!(out, "streaming with faces of kinds {kinds:?} on {}", of(sides, post))
            }
            Asked::Write { tally, room } => write!(out, "the file of a tally, into {room} bytes\n  {tally:x?}"),
            Asked::Read { file, room } => {
                write!(out, "a file of {} bytes, into {room} numbers\n  {}", file.len(), shown::bytes(file, &[4, 1]))
            }
        }
    }
}
