//! The four calls, by the words of the request alone.

use super::sums::{self, Tally, wrapped};
use crate::checkpoints::format::cells;

/// Why a call is refused, with its number; each call makes its tests in this order.
#[derive(Clone, Copy, Debug, PartialEq, Eq)]
pub enum Refusal {
    FewerThanFive = 12,
    Version = 13,
    Sides = 1,
    CountOrLength = 15,
    NotTheirSum = 17,
    Buffer = 2,
    Place = 6,
}

/// Cells of the grid, if populations of it are lent.
fn grid((nx, ny): (u64, u64), f: &[f64]) -> Result<usize, Refusal> {
    let cells = cells(nx, ny).ok_or(Refusal::Sides)?;
    if f.len() == 9 * cells { Ok(cells) } else { Err(Refusal::Buffer) }
}

pub fn tally(sides: (u64, u64), f: &[f64]) -> Result<Tally, Refusal> {
    Ok(sums::tally(f, grid(sides, f)?))
}

/// Writes one entry, and moves the first number and that plane's by new pattern less old, wrapping.
pub fn write_entry(
    (nx, ny): (u64, u64),
    [x, y, direction]: [usize; 3],
    pattern: u64,
    f: &mut [f64],
    tally: &mut Tally,
) -> Result<(), Refusal> {
    let cells = grid((nx, ny), f)?;
    if x as u64 >= nx || y as u64 >= ny || direction >= 9 {
        return Err(Refusal::Place);
    }
    let entry = &mut f[x + y * nx as usize + direction * cells];
    let old = entry.to_bits();
    *entry = f64::from_bits(pattern);
    for at in [0, 1 + direction] {
        // 2^64 less the old pattern, in two parts.
        tally[at] = wrapped([tally[at], pattern, u64::MAX - old, 1].into_iter());
    }
    Ok(())
}

/// A four-byte count 81, version byte 1, ten numbers, big-endian.
pub fn file(tally: &Tally) -> Vec<u8> {
    let head = [0, 0, 0, 81, 1];
    head.into_iter().chain(tally.iter().flat_map(|number| number.to_be_bytes())).collect()
}

fn coherent(tally: &Tally) -> Result<(), Refusal> {
    let [first, planes @ ..] = tally;
    if wrapped(planes.iter().copied()) == *first { Ok(()) } else { Err(Refusal::NotTheirSum) }
}

/// Writes a tally's file into a lent buffer.
pub fn write(tally: &Tally, into: &mut [u8]) -> Result<(), Refusal> {
    coherent(tally)?;
    if into.len() != 85 {
        return Err(Refusal::Buffer);
    }
    into.copy_from_slice(&file(tally));
    Ok(())
}

/// Reads a file's ten numbers into a lent buffer.
pub fn read(file: &[u8], into: &mut [u64]) -> Result<(), Refusal> {
    let [c0, c1, c2, c3, version, numbers @ ..] = file else { return Err(Refusal::FewerThanFive) };
    if *version != 1 {
        return Err(Refusal::Version);
    }
    if [*c0, *c1, *c2, *c3] != [0, 0, 0, 81] || file.len() != 4 + 81 {
        return Err(Refusal::CountOrLength);
    }
    let byte = |at: usize| u64::from(numbers[at]);
    let tally = std::array::from_fn(|at| (8 * at..8 * at + 8).fold(0, |number, at| number << 8 | byte(at)));
    coherent(&tally)?;
    if into.len() != 10 {
        return Err(Refusal::Buffer);
    }
    into.copy_from_slice(&tally);
    Ok(())
}
