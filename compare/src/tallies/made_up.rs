//! Makes up populations, runs of entries, faces, tallies and files, good and spoiled.

use super::asked::{Asked, Entry, Sides};
use super::faults::{FAULTS, spoil};
use super::rule;
use super::sums::{Tally, wrapped};
use crate::made::Made;
use crate::questions::lent::GUARD;
use crate::questions::spoiled::Spoiled;
use crate::questions::states::{other_length, populations, sides, wrong_sides};

/// Each kind of question in its turn.
pub fn asked(made: &mut Made, place: u64) -> Asked {
    const KINDS: [fn(&mut Made) -> Asked; 5] = [tallied, entered, streamed, written, read];
    KINDS[place as usize % KINDS.len()](made)
}

/// Mostly good; else the populations have another length, or a side is wrong.
fn tallied(made: &mut Made) -> Asked {
    let mut sides = sides(made, 16);
    let mut f = populations(made, sides);
    if made.one_in(6) {
        f.resize(other_length(made, f.len()), 1.0);
    }
    if made.one_in(8) {
        sides = wrong_sides(made, sides);
    }
    Asked::Tally { sides, f }
}

fn entered(made: &mut Made) -> Asked {
    let sides = sides(made, 512);
    let f = populations(made, sides);
    let beside = made.one_in(2).then(|| ten(made));
    let mut list: Vec<Entry> = Vec::new();
    for _ in 0..made.below(36) {
        let again = list.last().copied().filter(|_| made.one_in(8));
        list.push(again.unwrap_or_else(|| entry(made, sides)));
    }
    Asked::Entries { sides, f, beside, list }
}

/// An entry that is mostly good.
fn entry(made: &mut Made, (nx, ny): (u64, u64)) -> Entry {
    let place = [made.below(nx), made.below(ny), made.below(9)].map(|at| at as usize);
    let pattern = if made.one_in(2) { made.bits() } else { made.special() }.to_bits();
    let mut entry = Entry { place, pattern, sides: Sides::Right, extra: 0 };
    if made.one_in(8) {
        let at = made.below(3) as usize;
        entry.place[at] = made.pick(&[nx as usize, ny as usize, 9, 10, 4096, 1 << 32, 1 << 63, usize::MAX]);
    }
    if made.one_in(12) {
        entry.extra = made.pick(&[1, -1, -9, GUARD as isize, isize::MIN]);
    }
    if made.one_in(8) {
        let (x, y) = wrong_sides(made, (nx, ny));
        entry.sides = made.pick(&[Sides::Turned, Sides::Wrong(x, y)]);
    }
    entry
}

/// Each axis has both faces periodic, or two kinds of its own.
fn streamed(made: &mut Made) -> Asked {
    let sides = sides(made, 16);
    let mut kinds = [0; 4];
    for axis in kinds.chunks_mut(2) {
        if !made.one_in(3) {
            axis.fill_with(|| made.pick(&[0, 1, 1, 1, 3, 3, 3]));
        }
    }
    Asked::Stream { sides, kinds, post: populations(made, sides) }
}

fn written(made: &mut Made) -> Asked {
    let mut room = 85;
    if made.one_in(6) {
        room = other_length(made, room);
    }
    Asked::Write { tally: ten(made), room }
}

/// A file with one fault or more, and mostly a buffer that fits.
fn read(made: &mut Made) -> Asked {
    let mut file = Spoiled(rule::file(&ten(made)));
    for _ in 0..made.pick(&[0, 1, 1, 1, 2, 3]) {
        file.spoil(&FAULTS, made);
    }
    let mut room = 10;
    if made.one_in(6) {
        room = other_length(made, room);
    }
    Asked::Read { file: file.0, room }
}

/// Ten numbers, of which the first is mostly the sum of the others.
fn ten(made: &mut Made) -> Tally {
    let mut tally = std::array::from_fn(|_| {
        let any = made.next();
        made.pick(&[any, any, any, 0, 1, 1 << 32, 1 << 63, u64::MAX])
    });
    tally[0] = wrapped(tally[1..].iter().copied());
    if made.one_in(3) {
        spoil(&mut tally, made);
    }
    tally
}
