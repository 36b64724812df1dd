//! Counts the cells that a floor decides on, so that a comparison that never meets one would show.

use crate::case::{Case, Operation};
use source::FLOOR;
use std::ops::Range;

/// What was met of floors other than the source's, by calls that answered 0.
#[derive(Clone, Copy, Default)]
pub struct Floors {
    /// Those that tested a density.
    pub calls: u64,
    /// What such a floor changes of a call's first reading, and of its first collision.
    pub read: Changed,
    pub collided: Changed,
    /// Cells whose density is the floor, or its negative, to the last bit.
    pub exact: u64,
}

/// Cells that the source's floor would take otherwise.
#[derive(Clone, Copy, Default)]
pub struct Changed {
    /// They are at rest, and would move.
    pub at_rest: u64,
    /// They move, and would be at rest.
    pub moving: u64,
}

impl Floors {
    /// Counts a call by the populations that it is lent.
    pub fn count(&mut self, case: &Case, f: &[f64]) {
        let reads = case.operation.reads_velocities();
        let collides = case.operation.collides() && (case.operation == Operation::Step || case.steps > 0);
        let floor = case.settings.floor;
        if floor == FLOOR || !reads && !collides {
            return;
        }
        self.calls += 1;
        for cell in cells(case) {
            let density = (0..9).fold(0.0, |sum, i| sum + f[cell + i * case.cells()]);
            if reads {
                self.read.count(density, floor);
            }
            if collides {
                self.collided.count(density.abs(), floor);
            }
            self.exact += u64::from(density.abs() == floor);
        }
    }

    /// What a long comparison should have met and has not, in words.
    pub fn missed(&self) -> impl Iterator<Item = &'static str> {
        let Floors { calls, read, collided, exact } = self;
        let met = [
            (*calls, "a floor other than 1e-12"),
            (read.at_rest, "a cell read at rest, which by 1e-12 would move"),
            (read.moving, "a cell read moving, which by 1e-12 would rest"),
            (collided.at_rest, "a cell collided at rest, which by 1e-12 would move"),
            (collided.moving, "a cell collided moving, which by 1e-12 would rest"),
            (*exact, "a density of its floor to the last bit"),
        ];
        met.into_iter().filter(|&(times, _)| times == 0).map(|(_, what)| what)
    }
}

impl Changed {
    fn count(&mut self, density: f64, floor: f64) {
        self.at_rest += u64::from(density < floor && density >= FLOOR);
        self.moving += u64::from(density >= floor && density < FLOOR);
    }
}

/// The cells that a call takes: of the velocity one, else all.
fn cells(case: &Case) -> Range<usize> {
    match case.operation {
        Operation::Velocity => {
            let cell = case.x + case.y * case.settings.nx as usize;
            cell..cell + 1
        }
        _ => 0..case.cells(),
    }
}
