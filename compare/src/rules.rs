//! The numbers that a call answers, from the table of the rules and not from the port.

use crate::case::{Case, Operation};
use brothwagon::ffi::{Face, Obstacle, Settings};

/// The order in which the numbers are tested.
const ORDER: [u32; 10] = [1, 2, 3, 4, 5, 10, 6, 16, 7, 8];

/// The most steps of one run.
pub const MOST_STEPS: u64 = 1_000_000;

/// The number that the call is refused with: the first that applies. 0 if none does, 9 apart.
pub fn number(case: &Case) -> u32 {
    let tested = tested(case.operation);
    ORDER.into_iter().find(|number| tested.contains(number) && applies(*number, case)).unwrap_or(0)
}

/// What an operation tests: only what it takes.
fn tested(operation: Operation) -> &'static [u32] {
    match operation {
        Operation::Initialize | Operation::TotalMass => &[1, 2],
        Operation::Density | Operation::Plane => &[1, 2, 6],
        Operation::Velocity => &[1, 2, 3, 4, 6],
        Operation::VelocityField | Operation::KineticEnergy => &[1, 2, 3, 4],
        Operation::StreamWithFaces => &[1, 2, 5],
        Operation::Lossless => &[1, 5, 7],
        Operation::Reverse => &[1, 2, 5, 7, 8],
        Operation::Step => &[1, 2, 3, 4, 5],
        Operation::Run | Operation::RunToSteadyState => &[1, 2, 3, 4, 5, 10],
        Operation::SetNoSlipBc => &[1, 2, 6, 16],
    }
}

fn applies(number: u32, case: &Case) -> bool {
    let s = &case.settings;
    match number {
        1 => !case.has_grid(),
        2 => case.operation.lent().iter().any(|&buffer| case.length(buffer) != case.right_length(buffer)),
        // Whatever tests 3 has a density test; rates are of those that collide.
        3 => wrong_floor(s.floor) || case.operation.collides() && wrong_rates(s),
        4 => !s.fx.is_finite() || !s.fy.is_finite(),
        5 => {
            wrong_face(s.x_min, s.x_min.a)
                || wrong_face(s.x_max, -s.x_max.a)
                || wrong_face(s.y_min, s.y_min.b)
                || wrong_face(s.y_max, -s.y_max.b)
        }
        10 => case.steps > MOST_STEPS || case.operation == Operation::RunToSteadyState && case.tolerance.is_nan(),
        6 => match case.operation {
            Operation::Plane => case.direction > 8,
            Operation::SetNoSlipBc => case.list.iter().any(|obstacle| outside(s, obstacle.x, obstacle.y)),
            _ => outside(s, case.x, case.y),
        },
        16 => {
            let place = |obstacle: &Obstacle| obstacle.x as u64 + obstacle.y as u64 * s.nx;
            !case.list.is_sorted_by(|one, next| place(one) < place(next))
        }
        7 => case.faces().iter().any(|face| ![0, 1, 3].contains(&face.kind)),
        8 => lossy(case),
        _ => unreachable!("no test has the number {number}"),
    }
}

/// Number 3, of the floor.
fn wrong_floor(floor: f64) -> bool {
    !floor.is_finite() || floor <= 0.0
}

/// Number 3, of the rates. A kind of collision that is none of the three counts as a Trt without a rate.
fn wrong_rates(s: &Settings) -> bool {
    let tau = 3.0 * s.nu + 0.5;
    let rate_in_range = match s.collision {
        0 | 1 => true,
        2 => (0.0..=2.0).contains(&s.rate),
        _ => false,
    };
    !tau.is_finite() || tau < 0.5 || !rate_in_range
}

/// Number 5, for one face, with the velocity's component along its inward normal. A kind that is none of the six counts as a
/// Pressure without a density.
fn wrong_face(face: Face, un: f64) -> bool {
    match face.kind {
        0 | 1 | 3 => false,
        2 => !face.a.is_finite() || !face.b.is_finite(),
        4 => !face.a.is_finite() || !face.b.is_finite() || 1.0 - un == 0.0,
        5 => !face.a.is_finite() || face.a <= 0.0,
        _ => true,
    }
}

/// Number 6, for one place.
fn outside(s: &Settings, x: usize, y: usize) -> bool {
    x as u64 >= s.nx || y as u64 >= s.ny
}

/// Number 8.
fn lossy(case: &Case) -> bool {
    let [x_min, x_max, y_min, y_max] = case.faces().map(|face| face.kind);
    let halved = (x_min == 0) != (x_max == 0) || (y_min == 0) != (y_max == 0);
    let x_symmetry = x_min == 3 || x_max == 3;
    halved || x_symmetry && y_min != 0 && case.settings.ny >= 2
}
