//! Makes up the states of a grid, and what is wrong with how one is lent.

use crate::made::Made;
use crate::random::WRONG_FLOORS;
use brothwagon::ffi;

/// Settings of these sides. All else in them is such as other calls refuse, and must not matter. The floor is another on other
/// sides, so that each wrong one is met.
pub fn settings((nx, ny): (u64, u64)) -> ffi::Settings {
    let none = ffi::Face { kind: 6, a: f64::NAN, b: f64::NAN };
    let [x_min, x_max, y_min, y_max] = [none; 4];
    let [nu, fx, fy, rate] = [f64::NAN; 4];
    let floor = WRONG_FLOORS[nx.wrapping_add(ny) as usize % WRONG_FLOORS.len()];
    ffi::Settings { nx, ny, nu, fx, fy, collision: 3, rate, x_min, x_max, y_min, y_max, floor }
}

/// Mostly small; one in so many is larger.
pub fn sides(made: &mut Made, between_larger: u64) -> (u64, u64) {
    let most = if made.one_in(between_larger) { 64 } else { made.pick(&[2, 3, 4, 4, 6, 12]) };
    (1 + made.below(most), 1 + made.below(most))
}

/// Populations of any bits, of special numbers, of plain ones, or of one pattern.
pub fn populations(made: &mut Made, (nx, ny): (u64, u64)) -> Vec<f64> {
    let (kind, one) = (made.below(10), made.bits());
    let entry = |_| match kind {
        0..3 => made.bits(),
        3..6 => made.special(),
        6..9 => made.between(-1.0, 1.0),
        _ => one,
    };
    (0..9 * nx * ny).map(entry).collect()
}

/// Sides of which one at least is none.
pub fn wrong_sides(made: &mut Made, (nx, ny): (u64, u64)) -> (u64, u64) {
    let beyond = made.pick(&[0, 4097, 65_537, (1 << 32) + 1, 1 << 32, 1 << 63, u64::MAX]);
    made.pick(&[(beyond, ny), (nx, beyond), (beyond, beyond)])
}

/// A length that a buffer should not have.
pub fn other_length(made: &mut Made, right: usize) -> usize {
    let less = made.pick(&[1, 1, 4, 8, 9, 13, 72, right]);
    made.pick(&[right.saturating_sub(less), right + less, 2 * right, right / 2, right / 8, 8 * right])
}
