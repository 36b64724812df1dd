//! Makes cases up: any operation, settings, start and arguments, good or spoiled.

use crate::case::{Case, OPERATIONS, Operation, Start};
use crate::made::Made;
use crate::rules::MOST_STEPS;
use brothwagon::{Collision, ffi};
use source::FLOOR;

/// Each so many cases, one has a large grid.
const BETWEEN_LARGE: u64 = 1000;

const LARGE: [(u64, u64); 9] =
    [(4096, 256), (256, 4096), (1024, 1024), (4096, 1), (1, 4096), (240, 240), (256, 256), (700, 300), (4095, 255)];

/// The operations on whole grids, those that write populations first.
const WHOLE: [Operation; 11] = [
    Operation::Step,
    Operation::Run,
    Operation::StreamWithFaces,
    Operation::RunToSteadyState,
    Operation::Initialize,
    Operation::SetNoSlipBc,
    Operation::VelocityField,
    Operation::Reverse,
    Operation::TotalMass,
    Operation::KineticEnergy,
    Operation::Lossless,
];

const STARTS: [Start; 15] = [
    Start::Flow,
    Start::Flow,
    Start::Flow,
    Start::Flow,
    Start::Sprinkled,
    Start::Sprinkled,
    Start::Bits,
    Start::Special,
    Start::Thin,
    Start::AtFloor,
    Start::Huge,
    Start::Dense,
    Start::DenseBelow,
    Start::MinusZeros,
    Start::AllMinusZeros,
];

/// The case of one place in the list that a seed starts.
pub fn case(seed: u64, place: u64) -> Case {
    let mut made = Made::of(seed, place);
    if place.is_multiple_of(BETWEEN_LARGE) {
        return large(&mut made, place / BETWEEN_LARGE);
    }
    // One half is of the operations that write populations.
    let operation = if made.one_in(2) { made.pick(&OPERATIONS) } else { made.pick(&WHOLE[..6]) };
    let sides = sides(&mut made, operation);
    let mut case = good(&mut made, operation, sides);
    // Two faults at once show which is tested first.
    for _ in 0..made.pick(&[0, 0, 0, 0, 0, 0, 0, 1, 1, 2]) {
        made.pick(&FAULTS)(&mut case, &mut made);
    }
    case
}

/// The large grids in turn, each time with other operations.
fn large(made: &mut Made, turn: u64) -> Case {
    let (round, at) = (turn as usize / LARGE.len(), turn as usize % LARGE.len());
    let mut case = good(made, WHOLE[(round + at) % WHOLE.len()], LARGE[at]);
    case.steps = 1 + made.below(3);
    case
}

/// Mostly small: a reading of one cell needs no more.
fn sides(made: &mut Made, operation: Operation) -> (u64, u64) {
    let most = match operation {
        Operation::Density | Operation::Velocity | Operation::Plane => 6,
        _ => made.pick(&[4, 4, 8, 16, 32, 64, 64]),
    };
    (1 + made.below(most), 1 + made.below(most))
}

/// A case that none but the numbers 7, 8 and 9 can refuse.
fn good(made: &mut Made, operation: Operation, (nx, ny): (u64, u64)) -> Case {
    let copying = matches!(operation, Operation::Lossless | Operation::Reverse) && !made.one_in(16);
    let start = if copying { Start::Bits } else { made.pick(&STARTS) };
    let floor = floor(made, start);
    let nu = viscosity(made);
    let (collision, rate, magic) = collision(made, nu);
    let (fx, fy) = force(made);
    let [x_min, x_max, y_min, y_max] = faces(made, copying);
    let (list, steps) = match operation {
        Operation::SetNoSlipBc => (list(made, nx, ny), made.pick(&[0, 0, 0, 1, 2, 5])),
        _ => (Vec::new(), steps(made, nx * ny)),
    };
    Case {
        operation,
        settings: ffi::Settings { nx, ny, nu, fx, fy, collision, rate, x_min, x_max, y_min, y_max, floor },
        magic,
        start,
        seed: made.next(),
        extra: [0; 4],
        x: made.below(nx) as usize,
        y: made.below(ny) as usize,
        direction: made.below(9) as usize,
        list,
        steps,
        check_every: made.pick(&[0, 1, 1, 2, 3, 5, 1000, u64::MAX]),
        tolerance: made.pick(&[0.0, 1e-3, 1e-2, 0.1, 1.0, f64::INFINITY, -1.0, 1e-300]),
    }
}

/// Obstacles that ascend: in no cell, in one, in few, in many or in all.
fn list(made: &mut Made, nx: u64, ny: u64) -> Vec<ffi::Obstacle> {
    let obstacle = |cell: u64| ffi::Obstacle { x: (cell % nx) as usize, y: (cell / nx) as usize };
    let cells = nx * ny;
    match made.below(8) {
        0 => Vec::new(),
        1 => vec![obstacle(made.below(cells))],
        _ => {
            let chances = made.pick(&[1, 2, 4, 16, 100]);
            (0..cells).filter(|_| made.one_in(chances)).map(obstacle).collect()
        }
    }
}

/// One half is the source's, so that its unchanged file is compared with. The rest are any, or one that the start's densities
/// lie about.
fn floor(made: &mut Made, start: Start) -> f64 {
    let any = f64::from_bits(1 + made.below(f64::MAX.to_bits()));
    let ends = made.pick(&[5e-324, 1e-310, f64::MIN_POSITIVE, 1e-300, 1e300, f64::MAX]);
    let plain = made.pick(&[1e-20, 1e-13, 1e-11, 1e-6, 0.1, 0.5, 1.0, 1.5, 3.0, 1e6]);
    let density = if matches!(start, Start::Dense | Start::DenseBelow) { 1.6e308 } else { 1.0 };
    let about = density * made.between(0.9, 1.1);
    made.pick(&[FLOOR, FLOOR, FLOOR, FLOOR, FLOOR, any, ends, plain, about, about])
}

fn viscosity(made: &mut Made) -> f64 {
    match made.below(8) {
        0 => made.pick(&[0.0, -0.0, -1e-20, 5e-324, 1.0 / 6.0, 0.5, 1e10, 5e307]),
        1 => made.between(0.3, 100.0),
        _ => made.between(0.001, 0.3),
    }
}

/// The kind, the rate that the port is given, and the magic number that it comes from, if one does.
fn collision(made: &mut Made, nu: f64) -> (u64, f64, Option<f64>) {
    match made.below(5) {
        0 => (0, 0.0, None),
        1 => (1, 0.0, None),
        2 => {
            let rate = made.between(0.0, 2.0);
            (2, made.pick(&[rate, rate, rate, rate, 0.0, -0.0, 2.0, 5e-324]), None)
        }
        _ => {
            let magic = made.between(0.01, 1.0);
            let magic = made.pick(&[3.0 / 16.0, 3.0 / 16.0, 0.25, 1.0 / 6.0, 1.0 / 12.0, magic]);
            match Collision::trt_with_magic(nu, magic) {
                Collision::Trt(rate) => (2, rate, Some(magic)),
                _ => unreachable!("a magic number is of Trt"),
            }
        }
    }
}

fn force(made: &mut Made) -> (f64, f64) {
    let (fx, fy) = (made.between(-1e-3, 1e-3), made.between(-1e-3, 1e-3));
    match made.below(8) {
        0 => (fx, 0.0),
        1 => (0.0, fy),
        2 => (fx, fy),
        3 => (made.pick(&[-0.0, 5e-324, 1e300, -1e-310]), made.pick(&[-0.0, -5e-324, 1e308, 1.0])),
        _ => (0.0, 0.0),
    }
}

/// Each axis has both faces periodic, or two kinds of its own.
fn faces(made: &mut Made, copying: bool) -> [ffi::Face; 4] {
    let mut faces = [ffi::Face::default(); 4];
    for axis in faces.chunks_mut(2) {
        if !made.one_in(3) {
            axis.fill_with(|| face(made, copying));
        }
    }
    faces
}

fn face(made: &mut Made, copying: bool) -> ffi::Face {
    let kind = if copying { made.pick(&[0, 1, 1, 1, 3, 3, 3]) } else { made.below(6) };
    let (a, b) = match kind {
        2 | 4 => (speed(made), speed(made)),
        5 => {
            let rho = made.between(0.9, 1.1);
            (made.pick(&[rho, rho, rho, 1.0, 5e-324, 1e300]), 0.0)
        }
        // Numbers that the kind does not carry are not looked at.
        _ => (made.special(), made.special()),
    };
    ffi::Face { kind, a, b }
}

/// A speed that no face refuses: 1.0 into a Velocity face would be refused.
fn speed(made: &mut Made) -> f64 {
    let speed = made.between(-0.1, 0.1);
    made.pick(&[speed, speed, speed, speed, 0.0, -0.0, 5e-324, -1e-310, 2.0, 1e300, 0.999_999_999_999_999_9])
}

/// Few steps on many cells, many on few.
fn steps(made: &mut Made, cells: u64) -> u64 {
    if cells == 1 && made.one_in(32) {
        return MOST_STEPS;
    }
    let work = if made.one_in(64) { 400_000 } else { 30_000 };
    let most = made.pick(&[2, 4, 16, 64, 1024]);
    made.below(most.min(2 + work / cells))
}

/// Floors that are not finite or not above 0.
pub const WRONG_FLOORS: [f64; 9] = [f64::NAN, -f64::NAN, f64::INFINITY, f64::NEG_INFINITY, 0.0, -0.0, -5e-324, -FLOOR, -1.0];

/// Each makes one thing of a case wrong. What the operation does not take must not matter.
const FAULTS: [fn(&mut Case, &mut Made); 11] = [
    wrong_sides,
    wrong_length,
    wrong_viscosity,
    wrong_rate,
    wrong_floor,
    wrong_force,
    wrong_face,
    wrong_place,
    wrong_obstacle,
    wrong_order,
    wrong_run,
];

fn wrong_sides(case: &mut Case, made: &mut Made) {
    let ffi::Settings { nx, ny, .. } = case.settings;
    let beyond = [(4097, 1), (1, 4097), (4096, 257), (1025, 1024), (u64::MAX, 1), (1 << 32, 1 << 32), (1 << 63, 2)];
    let beyond = made.pick(&beyond);
    (case.settings.nx, case.settings.ny) = made.pick(&[(0, ny), (nx, 0), beyond, beyond]);
}

fn wrong_length(case: &mut Case, made: &mut Made) {
    if let lent @ [_, ..] = case.operation.lent() {
        case.extra[made.pick(lent)] = made.pick(&[1, -1, 9, -9, i64::from(i32::MIN)]);
    }
}

fn wrong_viscosity(case: &mut Case, made: &mut Made) {
    case.settings.nu = made.pick(&[f64::NAN, f64::INFINITY, f64::NEG_INFINITY, -0.2, -1e-16, 1e308]);
}

fn wrong_rate(case: &mut Case, made: &mut Made) {
    let above = 2.000_000_000_000_000_4;
    let wrong = [(2, f64::NAN), (2, f64::INFINITY), (2, -5e-324), (2, above), (3, 1.0), (u64::MAX, 1.0)];
    (case.settings.collision, case.settings.rate) = made.pick(&wrong);
    case.magic = None;
}

fn wrong_floor(case: &mut Case, made: &mut Made) {
    case.settings.floor = made.pick(&WRONG_FLOORS);
}

fn wrong_force(case: &mut Case, made: &mut Made) {
    let ffi::Settings { fx, fy, .. } = case.settings;
    let wrong = made.pick(&[f64::NAN, f64::INFINITY, f64::NEG_INFINITY]);
    (case.settings.fx, case.settings.fy) = made.pick(&[(wrong, fy), (fx, wrong), (wrong, wrong)]);
}

fn wrong_face(case: &mut Case, made: &mut Made) {
    let at = made.below(4) as usize;
    // Into the grid: +1 along the axis at its lower face, -1 at its upper one.
    let inward = if at.is_multiple_of(2) { 1.0 } else { -1.0 };
    let normal = if at < 2 { (4, inward, 0.1) } else { (4, 0.1, inward) };
    let (kind, a, b) = made.pick(&[
        normal,
        normal,
        (2, f64::NAN, 0.0),
        (2, 0.0, f64::INFINITY),
        (4, f64::NEG_INFINITY, 0.0),
        (4, 0.0, f64::NAN),
        (5, 0.0, 0.0),
        (5, -0.0, 0.0),
        (5, -1.0, 0.0),
        (5, f64::NAN, 0.0),
        (5, f64::INFINITY, 0.0),
        (6, 1.0, 0.0),
        (u64::MAX, 1.0, 0.0),
    ]);
    *case.face_mut(at) = ffi::Face { kind, a, b };
}

fn wrong_place(case: &mut Case, made: &mut Made) {
    let (x, y) = (case.x, case.y);
    let (nx, ny) = (case.settings.nx as usize, case.settings.ny as usize);
    (case.x, case.y) = made.pick(&[(nx, y), (x, ny), (usize::MAX, y), (x, usize::MAX), (nx, ny)]);
    case.direction = made.pick(&[9, 10, usize::MAX]);
}

/// An obstacle outside, anywhere in the list; where it is wrapped, x + y nx is still that of its cell.
fn wrong_obstacle(case: &mut Case, made: &mut Made) {
    let (nx, ny) = (case.settings.nx as usize, case.settings.ny as usize);
    if case.list.is_empty() {
        case.list.push(ffi::Obstacle::default());
    }
    let at = made.below(case.list.len() as u64) as usize;
    let ffi::Obstacle { x, y } = case.list[at];
    let far = made.pick(&[1 << 32, 1 << 63, usize::MAX]);
    let beyond = [(nx, y), (x, ny), (far, y), (x, far), (nx, ny), (far, far)];
    let wrapped = [(x.wrapping_add(nx), y.wrapping_sub(1)), (x.wrapping_sub(nx), y.wrapping_add(1))];
    let (x, y) = if made.one_in(3) { made.pick(&wrapped) } else { made.pick(&beyond) };
    case.list[at] = ffi::Obstacle { x, y };
}

/// An obstacle twice, a pair that falls, two in each other's place, or all of them by y + x ny.
fn wrong_order(case: &mut Case, made: &mut Made) {
    let (a, b) = (made.next() as usize, made.next() as usize);
    match case.list.len() {
        0 => {}
        1 => case.list.push(case.list[0]),
        count => match made.below(4) {
            0 => case.list.insert(a % count, case.list[a % count]),
            1 => case.list.swap(a % (count - 1), a % (count - 1) + 1),
            2 => case.list.swap(a % count, b % count),
            _ => case.list.sort_by_key(|obstacle| (obstacle.x, obstacle.y)),
        },
    }
}

fn wrong_run(case: &mut Case, made: &mut Made) {
    case.steps = made.pick(&[case.steps, MOST_STEPS + 1, u64::MAX]);
    case.tolerance = f64::NAN;
}
