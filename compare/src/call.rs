//! Makes the call of a case on the proved library.

use crate::case::{Case, F, Operation, POST, TABLE, U};
use crate::expected::{Answer, Lent};
use brothwagon::ffi;

/// Makes the call on these buffers.
pub fn call(case: &Case, lent: &mut Lent) -> Answer {
    let Case { operation, settings: s, x, y, steps, .. } = case;
    let [f, post, u, table] = &mut lent.0;
    let (f, post) = (part(case, F, f), part(case, POST, post));
    let (u, table) = (part(case, U, u), part(case, TABLE, table));
    match operation {
        Operation::Initialize => bare(ffi::initialize(s, table, f)),
        Operation::Density => with_numbers(ffi::density(s, f, *x, *y), |rho| [rho, 0.0]),
        Operation::Velocity => with_numbers(ffi::velocity(s, f, *x, *y), |u| u),
        Operation::VelocityField => bare(ffi::velocity_field(s, f, u)),
        Operation::TotalMass => with_numbers(ffi::total_mass(s, f), |mass| [mass, 0.0]),
        Operation::KineticEnergy => with_numbers(ffi::kinetic_energy(s, f), |energy| [energy, 0.0]),
        Operation::Plane => {
            let (number, [start, count]) = ffi::plane(s, f, case.direction);
            Answer { number, words: [start, count, 0, 0] }
        }
        Operation::StreamWithFaces => bare(ffi::stream_with_faces(s, post, f)),
        Operation::Lossless => {
            let (number, words) = ffi::lossless(s);
            Answer { number, words }
        }
        Operation::Reverse => bare(ffi::reverse(s, f, post)),
        Operation::Step => bare(ffi::step(s, f, post)),
        Operation::Run => bare(ffi::run(s, *steps, f, post)),
        Operation::RunToSteadyState => {
            let (number, [settled, taken, residual]) =
                ffi::run_to_steady_state(s, case.tolerance, *steps, case.check_every, f, post, u);
            Answer { number, words: [settled, taken, residual, 0] }
        }
        Operation::SetNoSlipBc => bare(ffi::set_no_slip_bc(s, &case.list, f)),
    }
}

/// What of a buffer is lent: none of it where the operation does not take it.
fn part<'a>(case: &Case, buffer: usize, all: &'a mut [f64]) -> &'a mut [f64] {
    if case.operation.lent().contains(&buffer) { &mut all[..case.length(buffer)] } else { &mut [] }
}

fn bare(number: u32) -> Answer {
    Answer { number, words: [0; 4] }
}

fn with_numbers<T>((number, answer): (u32, T), numbers: impl Fn(T) -> [f64; 2]) -> Answer {
    let [a, b] = numbers(answer).map(f64::to_bits);
    Answer { number, words: [a, b, 0, 0] }
}
