//! The Rust that the port carries over, as it stands and varied (build.rs says how), behind one set of calls for both copies.
//! And the levels that the port has, for the two programs that set it against the Rust.

pub mod levels;

include!(concat!(env!("OUT_DIR"), "/modules.rs"));

use boundary::{Boundaries, Boundary};
use brothwagon::ffi;
use collision::CollisionModel;

/// What is asked of either copy.
pub trait Solver {
    fn f(&mut self) -> &mut Vec<f64>;
    fn post(&mut self) -> &mut Vec<f64>;
    fn faces(&mut self) -> &mut Boundaries<2>;
    fn initialize(&mut self, table: &[f64]);
    fn density(&self, x: usize, y: usize) -> f64;
    fn velocity(&self, x: usize, y: usize) -> [f64; 2];
    fn velocity_field(&self) -> Vec<[f64; 2]>;
    fn total_mass(&self) -> f64;
    fn kinetic_energy(&self) -> f64;
    fn collide(&mut self);
    fn stream_with_faces(&mut self);
    fn apply_faces(&mut self);
    /// One cell of the list after the other.
    fn set_no_slip_bc(&mut self, list: &[ffi::Obstacle]);
    fn run(&mut self, steps: usize);
    fn run_to_steady_state(&mut self, tolerance: f64, max_steps: usize, check_every: usize) -> (usize, f64);
}

/// The floor of the unchanged file.
pub const FLOOR: f64 = 1e-12;

/// The Rust's solver on these settings and buffers: of the unchanged file wherever the floor is its own and a Trt has a magic
/// number, of the varied one elsewhere. The buffers may be longer than the grid asks for.
pub fn solver(settings: &ffi::Settings, magic: Option<f64>, f: Vec<f64>, post: Vec<f64>) -> Box<dyn Solver> {
    let unchanged = |collision, f, post| Box::new(d2q9_on(settings, collision, f, post));
    match (settings.collision, magic) {
        _ if settings.floor != FLOOR => varied_solver(settings, f, post),
        (0, _) => unchanged(CollisionModel::Bgk, f, post),
        (1, _) => unchanged(CollisionModel::Mrt, f, post),
        (_, Some(magic)) => unchanged(CollisionModel::Trt { magic }, f, post),
        (_, None) => varied_solver(settings, f, post),
    }
}

/// The varied file's solver. Its Trt goes by the settings' rate: where that comes from a magic number, it has the bits that the
/// unchanged file works out.
fn varied_solver(settings: &ffi::Settings, f: Vec<f64>, post: Vec<f64>) -> Box<dyn Solver> {
    let collision = match settings.collision {
        0 => CollisionModel::Bgk,
        1 => CollisionModel::Mrt,
        _ => CollisionModel::Trt { magic: settings.rate },
    };
    let mut solver = varied_on(settings, collision, f, post);
    solver.floor = settings.floor;
    Box::new(solver)
}

/// The faces as the Rust has them.
pub fn faces(settings: &ffi::Settings) -> Boundaries<2> {
    Boundaries { faces: [[face(settings.x_min), face(settings.x_max)], [face(settings.y_min), face(settings.y_max)]] }
}

fn face(face: ffi::Face) -> Boundary<2> {
    match face.kind {
        0 => Boundary::Periodic,
        1 => Boundary::NoSlip,
        2 => Boundary::MovingWall([face.a, face.b]),
        3 => Boundary::Symmetry,
        4 => Boundary::Velocity([face.a, face.b]),
        5 => Boundary::Pressure(face.a),
        // Refused wherever faces are looked at.
        _ => Boundary::Periodic,
    }
}

macro_rules! solver_of {
    ($copy:ident, $on:ident) => {
        fn $on(settings: &ffi::Settings, collision: CollisionModel, f: Vec<f64>, post: Vec<f64>) -> $copy::LatticeBoltzmann2D {
            // Sides of 0 at first, so that nothing is allocated: the buffers are lent.
            let mut solver = $copy::LatticeBoltzmann2D::new(0, 0, settings.nu)
                .with_collision(collision)
                .with_force([settings.fx, settings.fy])
                .with_boundaries(faces(settings));
            (solver.nx, solver.ny) = (settings.nx as usize, settings.ny as usize);
            solver.f = f;
            *solver.post() = post;
            solver
        }

        impl Solver for $copy::LatticeBoltzmann2D {
            fn f(&mut self) -> &mut Vec<f64> {
                &mut self.f
            }

            fn post(&mut self) -> &mut Vec<f64> {
                Self::post(self)
            }

            fn faces(&mut self) -> &mut Boundaries<2> {
                &mut self.boundaries
            }

            fn initialize(&mut self, table: &[f64]) {
                let nx = self.nx;
                self.initialize_with(|x, y| {
                    let cell = &table[3 * (x + y * nx)..];
                    (cell[0], [cell[1], cell[2]])
                });
            }

            fn density(&self, x: usize, y: usize) -> f64 {
                Self::density(self, x, y)
            }

            fn velocity(&self, x: usize, y: usize) -> [f64; 2] {
                Self::velocity(self, x, y)
            }

            fn velocity_field(&self) -> Vec<[f64; 2]> {
                Self::velocity_field(self)
            }

            fn total_mass(&self) -> f64 {
                Self::total_mass(self)
            }

            fn kinetic_energy(&self) -> f64 {
                Self::kinetic_energy(self)
            }

            fn collide(&mut self) {
                self.collide_only();
            }

            fn stream_with_faces(&mut self) {
                self.stream_only();
            }

            fn apply_faces(&mut self) {
                self.apply_boundaries();
            }

            fn set_no_slip_bc(&mut self, list: &[ffi::Obstacle]) {
                for &ffi::Obstacle { x, y } in list {
                    Self::set_no_slip_bc(self, x, y);
                }
            }

            fn run(&mut self, steps: usize) {
                Self::run(self, steps);
            }

            fn run_to_steady_state(&mut self, tolerance: f64, max_steps: usize, check_every: usize) -> (usize, f64) {
                Self::run_to_steady_state(self, tolerance, max_steps, check_every)
            }
        }
    };
}

solver_of!(d2q9, d2q9_on);
solver_of!(varied, varied_on);
