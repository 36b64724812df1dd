//! Finds the smallest question like a given one whose answer still differs.

use super::seen::Difference;
use super::{Ask, Question};

/// The longest list of which parts are turned to zeros; a longer one is, or is not, as a whole.
const LONGEST: usize = 4096;

/// Takes any smaller question whose answer still differs, until there is none.
pub fn smallest<A: Ask>(mut question: Question<A>, mut difference: Difference) -> (Question<A>, Difference) {
    while let Some(found) = smaller(&question) {
        (question, difference) = found;
    }
    (question, difference)
}

fn smaller<A: Ask>(question: &Question<A>) -> Option<(Question<A>, Difference)> {
    let size = |question: &Question<A>| (question.asked.size(), question.past);
    let differs = |question: Question<A>| question.compare().err().map(|difference| (question, difference));
    let others = question.asked.simpler().map(|asked| Question { asked, ..*question });
    let aligned = [0].into_iter().map(|past| Question { past, ..question.clone() });
    others.chain(aligned).filter(|simpler| size(simpler) < size(question)).find_map(differs)
}

/// Smaller sides, and how many cells fewer they have.
pub fn smaller_sides(nx: u64, ny: u64) -> impl Iterator<Item = (u64, u64, usize)> {
    let sides = [(1, 1), (1, ny), (nx, 1), (nx / 2, ny), (nx, ny / 2), (nx.saturating_sub(1), ny), (nx, ny.saturating_sub(1))];
    let cells = |nx, ny| u128::from(nx) * u128::from(ny);
    let less = move |x, y| cells(nx, ny).checked_sub(cells(x, y)).filter(|&less| less < 1 << 32);
    sides.into_iter().filter_map(move |(x, y)| Some((x, y, less(x, y)? as usize)))
}

/// Lengths that a lent buffer may have instead of a longer one.
pub fn shorter(length: usize) -> [usize; 3] {
    [0, length / 2, length.saturating_sub(1)]
}

/// A list without so many of its last items.
pub fn without<T: Clone>(list: &[T], last: usize) -> Vec<T> {
    list[..list.len().saturating_sub(last)].to_vec()
}

/// The list with a part of it turned to zeros: the whole, its halves, and so on.
pub fn with_zeros<T: Copy>(list: &[T], zero: T) -> impl Iterator<Item = Vec<T>> {
    let finest = if list.len() > LONGEST { 1 } else { 128 };
    let widths = [1, 2, 4, 8, 16, 32, 64, 128].into_iter().filter(move |&parts| parts <= finest);
    let widths = widths.map(|parts| list.len().div_ceil(parts).max(1));
    let stretches = widths.flat_map(|width| (0..list.len()).step_by(width).map(move |from| (from, width)));
    stretches.map(move |(from, width)| {
        let mut with = list.to_vec();
        with[from..list.len().min(from + width)].fill(zero);
        with
    })
}
