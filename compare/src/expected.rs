//! What a call must answer and leave behind: the Rust's own work, refusals by the rules.

use crate::case::{Case, F, Operation, POST, U};
use crate::rules;
use source::Solver;
use source::boundary::{Boundaries, Boundary, Side};
use source::d2q9::{E, OPP, W};
use std::mem::take;

/// What a call answers: its number, and its small answer array as patterns, filled up with zeros.
#[derive(Clone, Copy, Debug, Default, PartialEq, Eq)]
pub struct Answer {
    pub number: u32,
    pub words: [u64; 4],
}

/// The lent buffers: f, post, u and table, each with its guard behind it.
#[derive(Default)]
pub struct Lent(pub [Vec<f64>; 4]);

/// The listed differences that were met.
#[derive(Clone, Copy, Debug, Default)]
pub struct Listed {
    /// Numbers of the Rust that rest on a sum of -0.0 only, and have another sign for it.
    pub sums: u64,
    /// Steady runs over a bad snapshot, which the Rust goes on with.
    pub snapshots: u64,
    /// Those of them whose velocities are finite, and a density is not.
    pub densities: u64,
}

/// The one NaN that the port stores where arithmetic made one.
const NAN: u64 = 0x7ff8_0000_0000_0000;

const MINUS_ZERO: u64 = 0x8000_0000_0000_0000;

/// The pattern of a number that arithmetic made.
pub fn pattern(number: f64) -> u64 {
    if number.is_nan() { NAN } else { number.to_bits() }
}

/// Works out what the call must answer, and turns the buffers into what it must leave. A NaN in them is as the Rust has it,
/// where every entry of the buffer is arithmetic's; `all_made` says where that is.
pub fn expected(case: &Case, lent: &mut Lent, listed: &mut Listed) -> Answer {
    match rules::number(case) {
        0 => done(case, lent, listed),
        number => Answer { number, words: [0; 4] },
    }
}

/// Whether every NaN that the call leaves in this buffer is arithmetic's.
pub fn all_made(case: &Case, answer: &Answer, buffer: usize) -> bool {
    match (case.operation, buffer) {
        (Operation::Initialize, F) | (Operation::VelocityField, U) => answer.number == 0,
        (Operation::Step, _) => answer.number == 0,
        (Operation::Run, _) => answer.number == 0 && case.steps > 0,
        (Operation::RunToSteadyState, F | POST) => answer.words[1] > 0,
        _ => false,
    }
}

/// Asks the Rust on these buffers.
pub fn ask<T>(case: &Case, f: &mut Vec<f64>, post: &mut Vec<f64>, question: impl FnOnce(&mut dyn Solver) -> T) -> T {
    let mut solver = source::solver(&case.settings, case.magic, take(f), take(post));
    let answer = question(&mut *solver);
    (*f, *post) = (take(solver.f()), take(solver.post()));
    answer
}

fn done(case: &Case, lent: &mut Lent, listed: &mut Listed) -> Answer {
    let &Case { x, y, direction, steps, .. } = case;
    let [f, post, u, table] = &mut lent.0;
    let mut words = [0; 4];
    match case.operation {
        Operation::Initialize => ask(case, f, post, |rust| rust.initialize(table)),
        Operation::Density => words = numbers(&[density(case, f, post, listed)]),
        Operation::Velocity => words = numbers(&ask(case, f, post, |rust| rust.velocity(x, y))),
        Operation::VelocityField => put_snapshot(&ask(case, f, post, |rust| rust.velocity_field()), u),
        Operation::TotalMass => words = numbers(&[total_mass(case, f, post, listed)]),
        Operation::KineticEnergy => words = numbers(&[ask(case, f, post, |rust| rust.kinetic_energy())]),
        Operation::Plane => words = [(direction * case.cells()) as u64, case.cells() as u64, 0, 0],
        Operation::StreamWithFaces => {
            ask(case, f, post, |rust| stream(case, rust, listed));
            one_nan_where_made(case, f);
        }
        Operation::Lossless => words = lowest_lost(case, f, post),
        // There is no reverse in the Rust: what the port leaves is streamed.
        Operation::Reverse => {}
        Operation::Step => ask(case, f, post, |rust| advance(case, rust, 1, listed)),
        Operation::Run => ask(case, f, post, |rust| advance(case, rust, steps, listed)),
        Operation::RunToSteadyState => return ask(case, f, post, |rust| steady(case, rust, u, listed)),
        Operation::SetNoSlipBc => ask(case, f, post, |rust| rust.set_no_slip_bc(&case.list)),
    }
    Answer { number: 0, words }
}

/// The words of a call that answers numbers.
fn numbers(answered: &[f64]) -> [u64; 4] {
    let mut words = [0; 4];
    for (word, &number) in words.iter_mut().zip(answered) {
        *word = pattern(number);
    }
    words
}

fn density(case: &Case, f: &mut Vec<f64>, post: &mut Vec<f64>, listed: &mut Listed) -> f64 {
    let all_minus_zero = nothing_but_minus_zeros(case, f, case.x, case.y);
    from_plus_zero(ask(case, f, post, |rust| rust.density(case.x, case.y)), all_minus_zero, listed)
}

fn total_mass(case: &Case, f: &mut Vec<f64>, post: &mut Vec<f64>, listed: &mut Listed) -> f64 {
    let all_minus_zero = f[..9 * case.cells()].iter().copied().all(minus_zero);
    from_plus_zero(ask(case, f, post, |rust| rust.total_mass()), all_minus_zero, listed)
}

fn minus_zero(number: f64) -> bool {
    number.to_bits() == MINUS_ZERO
}

/// A sum of the Rust as it is from +0.0: it starts from -0.0, which shows where all the summed numbers are -0.0.
fn from_plus_zero(sum: f64, all_minus_zero: bool, listed: &mut Listed) -> f64 {
    if all_minus_zero && minus_zero(sum) {
        listed.sums += 1;
        return 0.0;
    }
    sum
}

fn put_snapshot(snapshot: &[[f64; 2]], u: &mut [f64]) {
    u[..2 * snapshot.len()].copy_from_slice(snapshot.as_flattened());
}

/// The index of entry (x, y, i).
fn entry(case: &Case, x: usize, y: usize, i: usize) -> usize {
    x + y * case.settings.nx as usize + i * case.cells()
}

/// The four faces in the order in which they are applied.
const FACES: [(usize, Side); 4] = [(0, Side::Min), (0, Side::Max), (1, Side::Min), (1, Side::Max)];

/// The cells of a face.
fn cells_of(case: &Case, axis: usize, side: Side) -> impl Iterator<Item = (usize, usize)> {
    let sides = [case.settings.nx as usize, case.settings.ny as usize];
    let fixed = if side == Side::Min { 0 } else { sides[axis] - 1 };
    (0..sides[1 - axis]).map(move |k| if axis == 0 { (fixed, k) } else { (k, fixed) })
}

/// The directions that enter the grid through a face.
fn entering(axis: usize, side: Side) -> impl Iterator<Item = usize> {
    let inward = if side == Side::Min { 1 } else { -1 };
    (0..9).filter(move |&i| E[i][axis] == inward)
}

/// Whether a face works its entries out, where the others copy.
fn works_out(face: Boundary<2>) -> bool {
    match face {
        Boundary::Periodic | Boundary::NoSlip | Boundary::Symmetry => false,
        Boundary::MovingWall(u) => u != [0.0, 0.0],
        Boundary::Velocity(_) | Boundary::Pressure(_) => true,
    }
}

/// Gives the entries that a face has worked out the one NaN, and leaves those that were copied as they are.
fn one_nan_where_made(case: &Case, f: &mut [f64]) {
    let faces = source::faces(&case.settings);
    for (axis, side) in FACES {
        for (x, y) in cells_of(case, axis, side) {
            for i in entering(axis, side) {
                let at = entry(case, x, y, i);
                if f[at].is_nan() && works_out(last_face(case, &faces, x, y, i)) {
                    f[at] = f64::from_bits(NAN);
                }
            }
        }
    }
}

/// The face that writes entry (x, y, i) last: of those that it enters through, the last that is not periodic.
fn last_face(case: &Case, faces: &Boundaries<2>, x: usize, y: usize, i: usize) -> Boundary<2> {
    let at = [x, y];
    let most = [case.settings.nx as usize - 1, case.settings.ny as usize - 1];
    let written = |axis: usize| match E[i][axis] {
        1 if at[axis] == 0 => faces.get(axis, Side::Min),
        -1 if at[axis] == most[axis] => faces.get(axis, Side::Max),
        _ => Boundary::Periodic,
    };
    if written(1).is_periodic() { written(0) } else { written(1) }
}

/// The Rust's step, so many times.
fn advance(case: &Case, rust: &mut dyn Solver, steps: u64, listed: &mut Listed) {
    if !case.faces().iter().any(|face| face.kind == 2) {
        return rust.run(steps as usize);
    }
    for _ in 0..steps {
        rust.collide();
        stream(case, rust, listed);
    }
}

/// The Rust's streaming with faces, but for moving walls whose density rests on a sum of -0.0 only: that sum is from +0.0.
fn stream(case: &Case, rust: &mut dyn Solver, listed: &mut Listed) {
    let faces = source::faces(&case.settings);
    let walls = FACES.into_iter().filter(|&(axis, side)| matches!(faces.get(axis, side), Boundary::MovingWall(_)));
    let mut cells = walls.flat_map(|(axis, side)| cells_of(case, axis, side));
    if !cells.any(|(x, y)| nothing_but_minus_zeros(case, rust.post(), x, y)) {
        return rust.stream_with_faces();
    }
    // A later face may read what a wall has written, so the walls are put right one face at a time.
    *rust.faces() = Boundaries::periodic();
    rust.stream_with_faces();
    for (axis, side) in FACES {
        let face = faces.get(axis, side);
        *rust.faces() = Boundaries::periodic().set(axis, side, face);
        rust.apply_faces();
        if let Boundary::MovingWall(u) = face
            && works_out(face)
        {
            put_wall_right(case, rust, axis, side, u, listed);
        }
    }
    *rust.faces() = faces;
}

/// Whether the nine entries of a cell are all -0.0.
fn nothing_but_minus_zeros(case: &Case, buffer: &[f64], x: usize, y: usize) -> bool {
    (0..9).all(|i| minus_zero(buffer[entry(case, x, y, i)]))
}

/// Works a moving wall out anew with a density of +0.0, where all the summed numbers are -0.0.
fn put_wall_right(case: &Case, rust: &mut dyn Solver, axis: usize, side: Side, u: [f64; 2], listed: &mut Listed) {
    for (x, y) in cells_of(case, axis, side) {
        if !nothing_but_minus_zeros(case, rust.post(), x, y) {
            continue;
        }
        for i in entering(axis, side) {
            let along = E[i][0] as f64 * u[0] + E[i][1] as f64 * u[1];
            let right = rust.post()[entry(case, x, y, OPP[i])] + 6.0 * W[i] * 0.0 * along;
            let had = &mut rust.f()[entry(case, x, y, i)];
            if pattern(*had) != pattern(right) {
                listed.sums += 1;
                *had = right;
            }
        }
    }
}

/// The lossless question by trial: every entry gets a pattern of its own, the Rust streams them, and the first that is not
/// found again is lost.
fn lowest_lost(case: &Case, f: &mut Vec<f64>, post: &mut Vec<f64>) -> [u64; 4] {
    let entries = 9 * case.cells();
    f.resize(entries, 0.0);
    post.clear();
    post.extend((0..entries as u64).map(f64::from_bits));
    ask(case, f, post, |rust| rust.stream_with_faces());
    let mut found = vec![false; entries];
    for copied in f.iter() {
        found[copied.to_bits() as usize] = true;
    }
    match found.iter().position(|found| !found) {
        None => [1, 0, 0, 0],
        Some(at) => {
            let (nx, cells) = (case.settings.nx as usize, case.cells());
            [0, (at % nx) as u64, (at % cells / nx) as u64, (at / cells) as u64]
        }
    }
}

/// The rule of the steady run, on the Rust's step and velocities.
fn steady(case: &Case, rust: &mut dyn Solver, u: &mut [f64], listed: &mut Listed) -> Answer {
    let every = case.check_every.max(1);
    let mut last = rust.velocity_field();
    let mut residual = f64::INFINITY;
    if bad(case, rust, &last, listed) {
        return Answer { number: 9, words: [0; 4] };
    }
    put_snapshot(&last, u);
    for step in 1..=case.steps {
        advance(case, rust, 1, listed);
        if !step.is_multiple_of(every) {
            continue;
        }
        let now = rust.velocity_field();
        if bad(case, rust, &now, listed) {
            return Answer { number: 9, words: [0, step, 0, 0] };
        }
        put_snapshot(&now, u);
        residual = residual_of(&now, &last);
        if residual < case.tolerance {
            return Answer { number: 0, words: [1, step, residual.to_bits(), 0] };
        }
        last = now;
    }
    Answer { number: 0, words: [0, case.steps, residual.to_bits(), 0] }
}

/// Whether a cell has a density or a velocity component that is not finite.
fn bad(case: &Case, rust: &dyn Solver, snapshot: &[[f64; 2]], listed: &mut Listed) -> bool {
    let nx = case.settings.nx as usize;
    let density = (0..case.cells()).any(|cell| !rust.density(cell % nx, cell / nx).is_finite());
    let velocity = snapshot.as_flattened().iter().any(|component| !component.is_finite());
    listed.snapshots += u64::from(density || velocity);
    listed.densities += u64::from(density && !velocity);
    density || velocity
}

fn residual_of(now: &[[f64; 2]], last: &[[f64; 2]]) -> f64 {
    let (now, last) = (now.as_flattened(), last.as_flattened());
    let change = now.iter().zip(last).map(|(now, last)| (now - last).abs()).fold(0.0, f64::max);
    let highest = now.iter().map(|now| now.abs()).fold(0.0, f64::max);
    if highest == 0.0 { change } else { change / highest }
}
