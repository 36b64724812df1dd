//! The ways to spoil a checkpoint file that are its own.

use crate::made::Made;
use crate::questions::spoiled::{Fault, Spoiled};

pub fn sides(file: &Spoiled) -> (u64, u64) {
    (file.number(5, 2), file.number(7, 2))
}

pub fn put_sides(file: &mut Spoiled, (nx, ny): (u64, u64)) {
    file.put(5, &(nx as u16).to_be_bytes());
    file.put(7, &(ny as u16).to_be_bytes());
}

pub const FAULTS: [Fault; 4] = [turn_a_number_round, turn_sides, same_cells, other_sides];

/// The count, a side, the step number, an entry.
fn turn_a_number_round(file: &mut Spoiled, made: &mut Made) {
    file.turn_round(made.pick(&[(0, 4), (5, 7), (7, 9), (5, 9), (9, 13), (13, 21), (21, 29)]));
}

fn turn_sides(file: &mut Spoiled, _: &mut Made) {
    let (nx, ny) = sides(file);
    put_sides(file, (ny, nx));
}

/// Other sides with as many cells.
fn same_cells(file: &mut Spoiled, made: &mut Made) {
    let (nx, ny) = sides(file);
    let all: Vec<(u64, u64)> = (1..=64).filter(|side| nx * ny % side == 0).map(|side| (side, nx * ny / side)).collect();
    put_sides(file, made.pick(&all));
}

/// Other sides, with the length and the count as they are, or as suits the sides.
fn other_sides(file: &mut Spoiled, made: &mut Made) {
    let (nx, ny) = sides(file);
    let other = made.pick(&[0, 1, nx + 1, nx ^ 0x100, nx ^ 0x8000, 2 * nx, 4096, 4097, 65_535]);
    let (nx, ny) = made.pick(&[(other, ny), (nx, other)]);
    put_sides(file, (nx, ny));
    if made.one_in(2) && nx * ny < 1 << 12 {
        file.resize(13 + 72 * (nx * ny) as usize, made);
    }
}
