//! The questions that are asked whatever the seed: every prefix, every first byte, every limit.

use super::asked::Asked;
use super::format::Header;
use crate::made::Made;
use crate::questions::Sweep;
use crate::questions::limits::{LIMITS, LONGER, WIDE, WRAPPED_TO};

pub const SWEEPS: [Sweep<Asked>; 9] = [
    (86 + 446, prefix),
    (SMALL.len() * LONGER.len(), longer),
    (13 * 256, changed_byte),
    (SMALL.len() * OFF.len(), read_into_others),
    (SMALL.len() * OFF.len() * OFF.len(), written_into_others),
    (LIMITS.len(), written_at_a_limit),
    (BEYOND.len() * 2, read_beyond),
    (WRAPPING.len() * WRAPPED_TO.len(), read_wrapped),
    (WIDE.len() * WRAPPED_TO.len(), written_wide),
];

const SMALL: [(u64, u64); 2] = [(1, 1), (2, 3)];

/// What a lent buffer has too many; the last leaves it empty.
const OFF: [isize; 4] = [0, -1, 1, isize::MIN];

/// Sides that a file can have, and a grid cannot.
const BEYOND: [(u64, u64); 15] = [
    (0, 0),
    (0, 1),
    (1, 0),
    (0, 4096),
    (65_535, 0),
    (4097, 1),
    (1, 4097),
    (8192, 1),
    (1, 32_768),
    (65_535, 1),
    (1, 65_535),
    (65_535, 65_535),
    (4096, 257),
    (257, 4096),
    (1025, 1024),
];

/// Sides of a file whose product or count some narrower number would take for that of a smaller grid: the first four are
/// sides of a grid, and their product has 16 low bits of 0 or its count 16 low bits of 9.
const WRAPPING: [(u64, u64); 8] =
    [(256, 256), (4096, 16), (1024, 1024), (2048, 4), (32_768, 16_384), (65_535, 65_535), (32_768, 2), (16_384, 32_768)];

/// A state whose entries are any bits and special numbers, so many cells of it.
fn state((nx, ny): (u64, u64), cells: usize) -> (Header, Vec<f64>) {
    let mut made = Made::of(nx, ny);
    let f = (0..9 * cells).map(|place| if place % 2 == 0 { made.special() } else { made.bits() }).collect();
    (Header { nx, ny, step: 0x0102_0384 }, f)
}

/// A whole state.
fn whole((nx, ny): (u64, u64)) -> (Header, Vec<f64>) {
    state((nx, ny), (nx * ny) as usize)
}

fn file((header, f): (Header, Vec<f64>)) -> Vec<u8> {
    header.file(&f)
}

/// Every prefix of the two small files, of 85 and 445 bytes, and each whole.
fn prefix(place: usize) -> Asked {
    let (sides, length) = if place < 86 { (SMALL[0], place) } else { (SMALL[1], place - 86) };
    let (header, f) = whole(sides);
    let mut file = header.file(&f);
    file.truncate(length);
    Asked::Read { file, room: f.len() }
}

fn longer(place: usize) -> Asked {
    let (header, f) = whole(SMALL[place % SMALL.len()]);
    let mut file = header.file(&f);
    file.resize(file.len() + LONGER[place / SMALL.len()], 0);
    Asked::Read { file, room: f.len() }
}

/// Every byte before the entries, changed to every value.
fn changed_byte(place: usize) -> Asked {
    let (header, f) = whole((2, 3));
    let mut file = header.file(&f);
    file[place / 256] = place as u8;
    Asked::Read { file, room: f.len() }
}

fn off(length: usize, by: isize) -> usize {
    length.saturating_add_signed(by)
}

fn read_into_others(place: usize) -> Asked {
    let (header, f) = whole(SMALL[place % SMALL.len()]);
    Asked::Read { file: header.file(&f), room: off(f.len(), OFF[place / SMALL.len()]) }
}

fn written_into_others(place: usize) -> Asked {
    let (header, mut f) = whole(SMALL[place % SMALL.len()]);
    let pair = place / SMALL.len();
    let room = off(13 + 8 * f.len(), OFF[pair % OFF.len()]);
    f.resize(off(f.len(), OFF[pair / OFF.len()]), 1.0);
    Asked::Write { header, f, room }
}

fn written_at_a_limit(place: usize) -> Asked {
    let (header, f) = whole(LIMITS[place]);
    let room = 13 + 8 * f.len();
    Asked::Write { header, f, room }
}

/// Sides beyond the limits, in a file of their length, unless that is out of all reach, and in one with a byte less.
fn read_beyond(place: usize) -> Asked {
    let (nx, ny) = BEYOND[place / 2];
    let cells = Some(nx * ny).filter(|&cells| cells < 1 << 21).unwrap_or(1) as usize;
    let mut file = file(state((nx, ny), cells));
    file.truncate(file.len() - place % 2);
    Asked::Read { file, room: 9 * cells }
}

fn read_wrapped(place: usize) -> Asked {
    let cells = WRAPPED_TO[place % WRAPPED_TO.len()];
    Asked::Read { file: file(state(WRAPPING[place / WRAPPED_TO.len()], cells)), room: 9 * cells }
}

fn written_wide(place: usize) -> Asked {
    let cells = WRAPPED_TO[place % WRAPPED_TO.len()];
    let (header, f) = state(WIDE[place / WRAPPED_TO.len()], cells);
    Asked::Write { header, f, room: 13 + 72 * cells }
}
