//! Finds the smallest case like a given one that still differs.

use crate::case::{Case, Start};
use crate::comparison::{Comparison, Difference};
use brothwagon::ffi;
use source::FLOOR;

/// So many obstacles are left out one by one.
const FEW: usize = 16;

/// Takes any simpler case that still differs, until there is none.
pub fn smallest(comparison: &mut Comparison, mut case: Case, mut difference: Difference) -> (Case, Difference) {
    while let Some(found) = simpler(comparison, &case) {
        (case, difference) = found;
    }
    (case, difference)
}

/// The first case that is simpler in one thing and still differs; the boldest are tried first.
fn simpler(comparison: &mut Comparison, case: &Case) -> Option<(Case, Difference)> {
    let mut found = None;
    let mut with = |change: &dyn Fn(&mut Case)| {
        if found.is_some() {
            return;
        }
        let mut simpler = case.clone();
        change(&mut simpler);
        // By what they say, since a NaN is not equal to itself; of a long list it is not all said.
        if simpler.to_string() != case.to_string() || simpler.list != case.list {
            found = comparison.compare(&simpler).err().map(|difference| (simpler, difference));
        }
    };
    // None is more than what it starts from, so that this ends.
    for less in [|n: u64| n.min(1), |n: u64| n / 2, |n: u64| n.saturating_sub(1)] {
        with(&|case| case.settings.nx = less(case.settings.nx));
        with(&|case| case.settings.ny = less(case.settings.ny));
        with(&|case| case.steps = less(case.steps));
    }
    simpler_lists(&mut with, case.list.len());
    simpler_faces(&mut with, case.faces());
    with(&|case| (case.settings.fx, case.settings.fy) = (0.0, 0.0));
    with(&|case| case.settings.fx = 0.0);
    with(&|case| case.settings.fy = 0.0);
    with(&|case| case.settings.floor = FLOOR);
    with(&|case| (case.settings.collision, case.settings.rate, case.magic) = (0, 0.0, None));
    with(&|case| (case.settings.nu, case.magic) = (0.5, None));
    with(&|case| case.start = Start::Flow);
    with(&|case| case.seed = 0);
    with(&|case| case.extra = [0; 4]);
    with(&|case| (case.x, case.y) = (0, 0));
    with(&|case| case.direction = 0);
    with(&|case| case.check_every = 1);
    with(&|case| case.tolerance = 0.0);
    found
}

/// Tries what a change makes of a case.
type With<'a> = dyn FnMut(&dyn Fn(&mut Case)) + 'a;

/// Periodic faces, walls, or lower speeds.
fn simpler_faces(with: &mut With, faces: [ffi::Face; 4]) {
    for (at, face) in faces.iter().enumerate() {
        with(&|case| *case.face_mut(at) = ffi::Face::default());
        if face.kind > 1 {
            with(&|case| *case.face_mut(at) = ffi::Face { kind: 1, a: 0.0, b: 0.0 });
            with(&|case| (case.face_mut(at).a, case.face_mut(at).b) = (0.1, 0.0));
            with(&|case| case.face_mut(at).b = 0.0);
        }
    }
}

/// Fewer obstacles, or nearer ones.
fn simpler_lists(with: &mut With, obstacles: usize) {
    with(&|case| case.list.truncate(obstacles / 2));
    with(&|case| drop(case.list.drain(..obstacles / 2)));
    for at in 0..obstacles.min(FEW) {
        with(&|case| drop(case.list.drain(at..=at)));
    }
    with(&|case| case.list.iter_mut().for_each(|obstacle| obstacle.x /= 2));
    with(&|case| case.list.iter_mut().for_each(|obstacle| obstacle.y /= 2));
}
