//! The ways to spoil ten numbers, and a tally file that has them.

use super::sums::Tally;
use crate::made::Made;
use crate::questions::spoiled::{Fault, Spoiled};

pub fn numbers(file: &Spoiled) -> Tally {
    std::array::from_fn(|at| file.number(5 + 8 * at, 8))
}

pub fn put_numbers(file: &mut Spoiled, tally: &Tally) {
    for (at, number) in tally.iter().enumerate() {
        file.put(5 + 8 * at, &number.to_be_bytes());
    }
}

pub const FAULTS: [Fault; 2] = [turn_a_number_round, other_numbers];

/// The count, or one of the ten.
fn turn_a_number_round(file: &mut Spoiled, made: &mut Made) {
    let at = 5 + 8 * made.below(10) as usize;
    file.turn_round(made.pick(&[(0, 4), (at, at + 8)]));
}

fn other_numbers(file: &mut Spoiled, made: &mut Made) {
    let mut tally = numbers(file);
    spoil(&mut tally, made);
    put_numbers(file, &tally);
}

/// One number moves, two that the rule allows to move together, or two are swapped.
pub fn spoil(tally: &mut Tally, made: &mut Made) {
    let (one, other) = (made.below(10) as usize, made.below(10) as usize);
    let any = made.next();
    let by = made.pick(&[1, 8, 1 << 31, 1 << 32, 1 << 53, 1 << 63, u64::MAX, any]);
    match made.below(4) {
        0 => tally[one] = tally[one].wrapping_add(by),
        1 => tally[0] = tally[0].wrapping_add(by),
        2 => {
            tally[0] = tally[0].wrapping_add(by);
            tally[one] = tally[one].wrapping_add(by);
        }
        _ => tally.swap(one, other),
    }
}
