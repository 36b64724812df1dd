//! Smaller questions, for the smallest whose answer still differs.

use super::asked::{Asked, Entry, Sides};
use super::faults::{numbers, put_numbers};
use super::sums::{Tally, wrapped};
use crate::questions::smaller::{shorter, smaller_sides, with_zeros, without};
use crate::questions::spoiled::Spoiled;

pub fn size(asked: &Asked) -> (u128, usize) {
    let populations = |&(nx, ny): &(u64, u64), f: &[f64]| {
        (u128::from(nx) + u128::from(ny) + f.len() as u128, not_zero(f.iter().map(|entry| entry.to_bits())))
    };
    match asked {
        Asked::Tally { sides, f } => populations(sides, f),
        Asked::Entries { sides, f, beside, list } => {
            let (lengths, entries) = populations(sides, f);
            let numbers = beside.map_or(0, |numbers| 1 + not_zero(numbers.into_iter()));
            (lengths + list.len() as u128, entries + numbers + list.iter().map(odd).sum::<usize>())
        }
        Asked::Stream { sides, kinds, post } => {
            let (lengths, entries) = populations(sides, post);
            (lengths, entries + not_zero(kinds.iter().copied()))
        }
        Asked::Write { tally, room } => (*room as u128, not_zero(tally.iter().copied())),
        Asked::Read { file, room } => ((file.len() + room) as u128, not_zero(file.iter().map(|&byte| byte.into()))),
    }
}

fn not_zero(numbers: impl Iterator<Item = u64>) -> usize {
    numbers.filter(|&number| number != 0).count()
}

/// How many things of an entry are not as plain as they could be.
fn odd(entry: &Entry) -> usize {
    let numbers = entry.place.map(|at| at as u64).into_iter().chain([entry.pattern]);
    not_zero(numbers) + usize::from(entry.sides != Sides::Right) + usize::from(entry.extra != 0)
}

pub fn simpler(asked: &Asked) -> Box<dyn Iterator<Item = Asked> + '_> {
    match asked {
        Asked::Tally { sides, f } => Box::new(simpler_populations(*sides, f).map(|(sides, f)| Asked::Tally { sides, f })),
        Asked::Entries { sides, f, beside, list } => {
            let fewer = simpler_lists(list).map(|list| (*sides, f.clone(), *beside, list));
            let smaller = simpler_populations(*sides, f).map(|(sides, f)| (sides, f, *beside, list.clone()));
            let plainer = simpler_beside(beside.as_ref()).map(|beside| (*sides, f.clone(), beside, list.clone()));
            let others = fewer.chain(smaller).chain(plainer);
            Box::new(others.map(|(sides, f, beside, list)| Asked::Entries { sides, f, beside, list }))
        }
        Asked::Stream { sides, kinds, post } => {
            let smaller = simpler_populations(*sides, post).filter(|(_, post)| !post.is_empty());
            let smaller = smaller.map(|(sides, post)| (sides, *kinds, post));
            let plainer = with_zeros(kinds, 0).map(|kinds| (*sides, all(kinds), post.clone()));
            Box::new(smaller.chain(plainer).map(|(sides, kinds, post)| Asked::Stream { sides, kinds, post }))
        }
        Asked::Write { tally, room } => {
            let rooms = shorter(*room).map(|room| (*tally, room)).into_iter();
            let others = rooms.chain(simpler_tallies(tally).map(|tally| (tally, *room)));
            Box::new(others.map(|(tally, room)| Asked::Write { tally, room }))
        }
        Asked::Read { file, room } => Box::new(simpler_files(file, *room)),
    }
}

/// On smaller sides with as many entries too many or too few, or with zeros in them.
fn simpler_populations((nx, ny): (u64, u64), f: &[f64]) -> impl Iterator<Item = ((u64, u64), Vec<f64>)> {
    let on_smaller = |(nx, ny, less): (u64, u64, usize)| ((nx, ny), without(f, 9 * less));
    smaller_sides(nx, ny).map(on_smaller).chain(with_zeros(f, 0.0).map(move |f| ((nx, ny), f)))
}

/// One half, one entry less, or a plainer one.
fn simpler_lists(list: &[Entry]) -> impl Iterator<Item = Vec<Entry>> {
    let (first, last) = list.split_at(list.len() / 2);
    let with = |at: usize, entry: Option<Entry>| [&list[..at], entry.as_slice(), &list[at + 1..]].concat();
    let fewer = (0..list.len()).map(move |at| with(at, None));
    let plainer = (0..list.len()).flat_map(move |at| plainer(list[at]).map(|entry| with(at, Some(entry))));
    [first.to_vec(), last.to_vec()].into_iter().chain(fewer).chain(plainer)
}

fn plainer(entry: Entry) -> [Entry; 6] {
    let [x, y, direction] = entry.place;
    [
        Entry { sides: Sides::Right, ..entry },
        Entry { extra: 0, ..entry },
        Entry { pattern: 0, ..entry },
        Entry { place: [0, y, direction], ..entry },
        Entry { place: [x, 0, direction], ..entry },
        Entry { place: [x, y, 0], ..entry },
    ]
}

/// The populations' own tally, or zeros among these numbers.
fn simpler_beside(beside: Option<&Tally>) -> impl Iterator<Item = Option<Tally>> {
    beside.into_iter().flat_map(|numbers| [None].into_iter().chain(with_zeros(numbers, 0).map(|numbers| Some(all(numbers)))))
}

/// Zeros among the nine, the first number as far from their sum as it was; or among the ten.
fn simpler_tallies(tally: &Tally) -> impl Iterator<Item = Tally> {
    let [first, planes @ ..] = tally;
    let sum = |planes: &[u64]| wrapped(planes.iter().copied());
    let off = first.wrapping_sub(sum(planes));
    let as_far_off = with_zeros(planes, 0).map(move |planes| [vec![sum(&planes).wrapping_add(off)], planes].concat());
    as_far_off.chain(with_zeros(tally, 0)).map(all)
}

fn simpler_files(file: &[u8], room: usize) -> impl Iterator<Item = Asked> {
    let length = file.len();
    let rooms = shorter(room).into_iter().map(|room| (file.to_vec(), room));
    let cuts = [0, 5, length / 2, length.saturating_sub(1)].into_iter().map(move |to| (file[..to.min(length)].to_vec(), room));
    let zeroed = files_of_simpler(file).into_iter().chain(with_zeros(file, 0)).map(move |file| (file, room));
    rooms.chain(cuts).chain(zeroed).map(|(file, room)| Asked::Read { file, room })
}

/// The file with simpler numbers behind its head.
fn files_of_simpler(file: &[u8]) -> Vec<Vec<u8>> {
    let with = |tally: Tally| {
        let mut file = Spoiled(file.to_vec());
        put_numbers(&mut file, &tally);
        file.0
    };
    simpler_tallies(&numbers(&Spoiled(file.to_vec()))).map(with).collect()
}

fn all<const N: usize>(list: Vec<u64>) -> [u64; N] {
    list.try_into().expect("no number is left out")
}
