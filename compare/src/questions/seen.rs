//! What is seen of the calls that the Rust does not know: it is compared with what a request's words expect, and counted.

use super::lent::{Item, Lent};
use std::fmt;

/// These calls.
#[derive(Clone, Copy, Debug, PartialEq, Eq, PartialOrd, Ord)]
pub enum Call {
    WriteCheckpoint,
    CheckpointSides,
    ReadCheckpoint,
    Tally,
    WriteEntry,
    WriteTally,
    ReadTally,
}

/// What is counted.
#[derive(Clone, Copy, PartialEq, Eq, PartialOrd, Ord)]
pub enum Met {
    /// A call answered this number.
    Number(Call, u32),
    /// The tally's first number after streaming with faces was the one before, or was not.
    Streamed { lossless: bool, kept: bool },
}

/// What differs, in words.
pub type Difference = String;

/// What was seen without a difference.
#[derive(Default)]
pub struct Seen {
    pub met: Vec<Met>,
    /// Bytes and entries of lent buffers, numbers and words.
    pub compared: u64,
}

impl Seen {
    /// A call answers the number and the words that are expected; where one is refused, zeros.
    pub fn answers<const N: usize>(
        &mut self,
        call: Call,
        wanted: Result<[u64; N], u32>,
        got: (u32, [u64; N]),
    ) -> Result<(), Difference> {
        let wanted = wanted.map_or_else(|number| (number, [0; N]), |words| (0, words));
        if wanted != got {
            return Err(format!("{call:?}: {} expected, the port answers {}", shown(wanted), shown(got)));
        }
        self.met.push(Met::Number(call, wanted.0));
        self.compared += 1 + N as u64;
        Ok(())
    }

    /// What is lent, and the guards around it, have the bits that are expected.
    pub fn same<T: Item>(&mut self, what: &str, wanted: &Lent<T>, got: &Lent<T>) -> Result<(), Difference> {
        self.compared += wanted.all.len() as u64;
        match wanted.all.iter().zip(&got.all).position(|(wanted, got)| wanted.bits() != got.bits()) {
            Some(at) => {
                let (place, wanted, got) = (at as i64 - wanted.begins as i64, wanted.all[at].bits(), got.all[at].bits());
                Err(format!("{what} {place} of what is lent: {wanted:#x} expected, the port leaves {got:#x}"))
            }
            None => Ok(()),
        }
    }
}

fn shown<const N: usize>((number, words): (u32, [u64; N])) -> String {
    if N == 0 { format!("number {number}") } else { format!("number {number} with {words:x?}") }
}

impl fmt::Display for Met {
    fn fmt(&self, out: &mut fmt::Formatter) -> fmt::Result {
        match *self {
            Met::Number(call, number) => write!(out, "{call:?} answered {number}"),
            Met::Streamed { lossless, kept } => {
                let (grid, sum) = (if lossless { "lossless" } else { "lossy" }, if kept { "kept" } else { "changed" });
                write!(out, "a {grid} grid {sum} the sum")
            }
        }
    }
}
