//! The questions that are asked whatever the seed: every small grid, every place, every byte, every length, every limit.

use super::asked::{Asked, Entry, Sides};
use super::rule;
use super::sums::{Tally, wrapped};
use crate::made::Made;
use crate::questions::Sweep;
use crate::questions::limits::{LIMITS, LONGER, WIDE, WRAPPED_TO};

pub const SWEEPS: [Sweep<Asked>; 11] = [
    (SMALL * SMALL, tallied),
    (SMALL * SMALL * 81, streamed),
    (5 * 6 * 11, entered),
    (3 * LIMITS.len(), at_a_limit),
    (WIDE.len() * WRAPPED_TO.len(), tallied_wide),
    (86, prefix),
    (LONGER.len(), longer),
    (85 * 256, changed_byte),
    (640, changed_bit),
    (2 * 20, read_into_others),
    (2 * 100, written_into_others),
];

/// Sides up to this one are taken each with each.
const SMALL: usize = 5;

fn small(place: usize) -> (u64, u64) {
    (1 + (place % SMALL) as u64, 1 + (place / SMALL % SMALL) as u64)
}

/// Entries of any bits and special numbers, for so many cells.
fn populations(cells: u64) -> Vec<f64> {
    let mut made = Made::of(cells, 0);
    (0..9 * cells).map(|place| if place % 2 == 0 { made.special() } else { made.bits() }).collect()
}

/// An entry that is to be all ones.
fn entry(place: [usize; 3]) -> Entry {
    Entry { place, pattern: u64::MAX, sides: Sides::Right, extra: 0 }
}

/// Ten numbers, the first of them the sum of the others, which wraps.
fn tally() -> Tally {
    let mut made = Made::of(10, 0);
    let mut tally = std::array::from_fn(|_| made.next());
    tally[0] = wrapped(tally[1..].iter().copied());
    tally
}

fn tallied(place: usize) -> Asked {
    let sides @ (nx, ny) = small(place);
    Asked::Tally { sides, f: populations(nx * ny) }
}

/// Every face that copies, with every other.
fn streamed(place: usize) -> Asked {
    let (sides @ (nx, ny), faces) = (small(place), place / (SMALL * SMALL));
    let kinds = [1, 3, 9, 27].map(|by| [0, 1, 3][faces / by % 3]);
    Asked::Stream { sides, kinds, post: populations(nx * ny) }
}

/// Every place of a grid of 3 by 4, and those next to it, beside the populations' own tally and beside other numbers.
fn entered(place: usize) -> Asked {
    let list = vec![entry([place % 5, place / 5 % 6, place / 30]); 2];
    Asked::Entries { sides: (3, 4), f: populations(12), beside: place.is_multiple_of(2).then(tally), list }
}

/// On each of these grids the tally, the last entry, and streaming between x faces of NoSlip and y faces of Symmetry: lossless.
fn at_a_limit(place: usize) -> Asked {
    let sides @ (nx, ny) = LIMITS[place / 3];
    let f = populations(nx * ny);
    match place % 3 {
        0 => Asked::Tally { sides, f },
        1 => Asked::Entries { sides, f, beside: None, list: vec![entry([nx as usize - 1, ny as usize - 1, 8])] },
        _ => Asked::Stream { sides, kinds: [1, 1, 3, 3], post: f },
    }
}

fn tallied_wide(place: usize) -> Asked {
    let cells = WRAPPED_TO[place % WRAPPED_TO.len()];
    Asked::Tally { sides: WIDE[place / WRAPPED_TO.len()], f: populations(cells as u64) }
}

/// A file, changed, into a buffer that fits.
fn read(change: impl FnOnce(&mut Vec<u8>)) -> Asked {
    let mut file = rule::file(&tally());
    change(&mut file);
    Asked::Read { file, room: 10 }
}

fn prefix(place: usize) -> Asked {
    read(|file| file.truncate(place))
}

fn longer(place: usize) -> Asked {
    read(|file| file.resize(85 + LONGER[place], 0))
}

fn changed_byte(place: usize) -> Asked {
    read(|file| file[place / 256] = place as u8)
}

/// A tally of which one bit is another, which is no tally.
fn changed_bit(place: usize) -> Asked {
    let mut tally = tally();
    tally[place / 64] ^= 1 << (place % 64);
    Asked::Write { tally, room: 85 }
}

/// A file of a tally, or of no tally, into every short buffer.
fn read_into_others(place: usize) -> Asked {
    let mut tally = tally();
    tally[0] ^= (place % 2) as u64;
    Asked::Read { file: rule::file(&tally), room: place / 2 }
}

fn written_into_others(place: usize) -> Asked {
    let mut tally = tally();
    tally[0] ^= (place % 2) as u64;
    Asked::Write { tally, room: place / 2 }
}
