//! Makes up states that are written, and files that are spoiled in ways that a careless reader would not notice.

use super::asked::Asked;
use super::faults::{FAULTS, sides};
use super::format::Header;
use crate::made::Made;
use crate::questions::spoiled::Spoiled;
use crate::questions::states::{self, other_length, wrong_sides};

/// In turn a state to write, and a file to read.
pub fn asked(made: &mut Made, place: u64) -> Asked {
    if place.is_multiple_of(2) { written(made) } else { read(made) }
}

/// Mostly good; else a lent buffer has another length, or a side is wrong.
fn written(made: &mut Made) -> Asked {
    let (mut header, mut f) = state(made);
    let mut room = 13 + 8 * f.len();
    if made.one_in(6) {
        room = other_length(made, room);
    }
    if made.one_in(6) {
        f.resize(other_length(made, f.len()), -0.0);
    }
    if made.one_in(8) {
        (header.nx, header.ny) = wrong_sides(made, (header.nx, header.ny));
    }
    Asked::Write { header, f, room }
}

/// A file with one fault or more, and mostly a buffer that fits its sides.
fn read(made: &mut Made) -> Asked {
    let (header, f) = state(made);
    let mut file = Spoiled(header.file(&f));
    for _ in 0..made.pick(&[1, 1, 1, 2, 3]) {
        file.spoil(&FAULTS, made);
    }
    let (nx, ny) = sides(&file);
    let mut room = if nx * ny < 1 << 12 { 9 * (nx * ny) as usize } else { f.len() };
    if made.one_in(6) {
        room = other_length(made, room);
    }
    Asked::Read { file: file.0, room }
}

fn state(made: &mut Made) -> (Header, Vec<f64>) {
    let (nx, ny) = states::sides(made, 512);
    let any = made.next() as u32;
    let step = made.pick(&[any, any, any, 0, 1, 0xff, 0x100, 0xffff, 0x1_0000, 0x7fff_ffff, 0x8000_0000, u32::MAX]);
    (Header { nx, ny, step }, states::populations(made, (nx, ny)))
}
