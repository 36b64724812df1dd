//! Smaller states and files, for the smallest that still differs.

use super::asked::Asked;
use super::faults::{put_sides, sides};
use super::format::Header;
use crate::questions::smaller::{shorter, smaller_sides, with_zeros, without};
use crate::questions::spoiled::Spoiled;

pub fn size(state: &Asked) -> (u128, usize) {
    match state {
        Asked::Write { header: Header { nx, ny, step }, f, room } => {
            let not_zero = f.iter().filter(|entry| entry.to_bits() != 0).count() + usize::from(*step != 0);
            (u128::from(*nx) + u128::from(*ny) + (f.len() + room) as u128, not_zero)
        }
        Asked::Read { file, room } => ((file.len() + room) as u128, file.iter().filter(|&&byte| byte != 0).count()),
    }
}

pub fn simpler(state: &Asked) -> Box<dyn Iterator<Item = Asked> + '_> {
    match state {
        Asked::Write { header, f, room } => Box::new(simpler_states(*header, f, *room)),
        Asked::Read { file, room } => Box::new(simpler_files(file, *room)),
    }
}

fn simpler_states(header: Header, f: &[f64], room: usize) -> impl Iterator<Item = Asked> {
    let on_smaller = move |(nx, ny, less)| Asked::Write {
        header: Header { nx, ny, ..header },
        f: without(f, 9 * less),
        room: room.saturating_sub(72 * less),
    };
    let at_step = move |step| Asked::Write { header: Header { step, ..header }, f: f.to_vec(), room };
    let smaller = smaller_sides(header.nx, header.ny).map(on_smaller);
    let zeroed = with_zeros(f, 0.0).map(move |f| Asked::Write { header, f, room });
    smaller.chain([0].into_iter().map(at_step)).chain(zeroed)
}

fn simpler_files(file: &[u8], room: usize) -> impl Iterator<Item = Asked> {
    let length = file.len();
    let cuts = [0, 5, 9, 13, length / 2, length.saturating_sub(8), length.saturating_sub(1)].into_iter();
    let cut = move |to: usize| Asked::Read { file: file[..to.min(length)].to_vec(), room };
    let rooms = shorter(room).into_iter();
    let into = move |room| Asked::Read { file: file.to_vec(), room };
    let zeroed = with_zeros(file, 0).map(move |file| Asked::Read { file, room });
    rooms.map(into).chain(cuts.map(cut)).chain(files_on_smaller(file, room)).chain(zeroed)
}

/// The file on smaller grids: as many bytes too long or too short, with a count as far off.
fn files_on_smaller(file: &[u8], room: usize) -> impl Iterator<Item = Asked> {
    let header = Spoiled(file.iter().copied().take(13).collect());
    let (nx, ny) = sides(&header);
    let on_smaller = move |(nx, ny, less)| {
        let mut smaller = Spoiled(without(file, 72 * less));
        put_sides(&mut smaller, (nx, ny));
        smaller.put_count(header.count().wrapping_sub(72 * less as u32));
        Asked::Read { file: smaller.0, room: room.saturating_sub(9 * less) }
    };
    smaller_sides(nx, ny).map(on_smaller)
}
