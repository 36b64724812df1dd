//! The tally of populations, by the words of the request alone.
//!
//! The sum of all entries' 64-bit patterns, wrapping at 64 bits, and nine more, one per direction plane. Each sum is exact, and
//! wrapped once.

/// The first number, then those of the nine planes.
pub type Tally = [u64; 10];

pub fn wrapped(numbers: impl Iterator<Item = u64>) -> u64 {
    let sum: u128 = numbers.map(u128::from).sum();
    (sum % (1 << 64)) as u64
}

/// The tally of populations whose planes have so many entries.
pub fn tally(f: &[f64], plane: usize) -> Tally {
    let sum = |entries: &[f64]| wrapped(entries.iter().map(|entry| entry.to_bits()));
    std::array::from_fn(|at| if at == 0 { sum(f) } else { sum(&f[(at - 1) * plane..at * plane]) })
}
