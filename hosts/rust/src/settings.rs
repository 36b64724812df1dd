use crate::ffi;

/// The magic number that puts a wall halfway between cells at every viscosity: 3/16.
pub const MAGIC_BOUNCE_BACK: f64 = 3.0 / 16.0;

/// The floor of the solver's source: it suits every study without thin regions.
pub const FLOOR: f64 = 1e-12;

/// What one face of the grid does.
#[derive(Clone, Copy, Debug, Default, PartialEq)]
pub enum Face {
    /// Joined to the opposite face.
    #[default]
    Periodic,
    /// A wall at rest.
    NoSlip,
    /// A wall that moves with this velocity.
    MovingWall(f64, f64),
    /// A mirror.
    Symmetry,
    /// A prescribed velocity, as at an inlet.
    Velocity(f64, f64),
    /// A prescribed density, as at an outlet.
    Pressure(f64),
}

impl From<Face> for ffi::Face {
    fn from(face: Face) -> ffi::Face {
        let (kind, a, b) = match face {
            Face::Periodic => (0, 0.0, 0.0),
            Face::NoSlip => (1, 0.0, 0.0),
            Face::MovingWall(ux, uy) => (2, ux, uy),
            Face::Symmetry => (3, 0.0, 0.0),
            Face::Velocity(ux, uy) => (4, ux, uy),
            Face::Pressure(rho) => (5, rho, 0.0),
        };
        ffi::Face { kind, a, b }
    }
}

/// How a cell's populations collide.
#[derive(Clone, Copy, Debug, PartialEq)]
pub enum Collision {
    /// One relaxation time.
    Bgk,
    /// Nine moments, each with its rate.
    Mrt,
    /// Two relaxation times; the number is the minus rate.
    Trt(f64),
}

impl Collision {
    /// Trt with the minus rate that this magic number gives at this viscosity. A change of viscosity asks for a new rate.
    pub fn trt_with_magic(nu: f64, magic: f64) -> Collision {
        Collision::Trt(trt_omega_minus(1.0 / (3.0 * nu + 0.5), magic))
    }
}

/// The minus rate that goes with a plus rate and a magic number. Each operation is rounded, and `1.0 / omega_plus` is taken of
/// the rounded rate: the same bits as the solver's source gives.
pub fn trt_omega_minus(omega_plus: f64, magic: f64) -> f64 {
    1.0 / (magic / (1.0 / omega_plus - 0.5) + 0.5)
}

/// All that a study is, but for its populations.
///
/// The library judges them at each call, and only what that call takes: see [`Refusal`](crate::Refusal).
#[derive(Clone, Copy, Debug, PartialEq)]
pub struct Settings {
    /// Cells in x.
    pub nx: usize,
    /// Cells in y.
    pub ny: usize,
    /// Kinematic viscosity.
    pub nu: f64,
    /// Body force in x.
    pub fx: f64,
    /// Body force in y.
    pub fy: f64,
    /// How cells collide.
    pub collision: Collision,
    /// The face at x = 0.
    pub x_min: Face,
    /// The face at x = nx - 1.
    pub x_max: Face,
    /// The face at y = 0.
    pub y_min: Face,
    /// The face at y = ny - 1.
    pub y_max: Face,
    /// A cell whose density is below it reads as at rest, and one whose density is smaller in magnitude collides as at rest. It
    /// must be finite and above 0.
    pub floor: f64,
}

impl Settings {
    /// Periodic faces, no force, Trt with the magic number 3/16, and the floor 1e-12.
    pub fn new(nx: usize, ny: usize, nu: f64) -> Settings {
        Settings {
            nx,
            ny,
            nu,
            fx: 0.0,
            fy: 0.0,
            collision: Collision::trt_with_magic(nu, MAGIC_BOUNCE_BACK),
            x_min: Face::Periodic,
            x_max: Face::Periodic,
            y_min: Face::Periodic,
            y_max: Face::Periodic,
            floor: FLOOR,
        }
    }
}

impl From<&Settings> for ffi::Settings {
    fn from(settings: &Settings) -> ffi::Settings {
        let (collision, rate) = match settings.collision {
            Collision::Bgk => (0, 0.0),
            Collision::Mrt => (1, 0.0),
            Collision::Trt(rate) => (2, rate),
        };
        ffi::Settings {
            nx: settings.nx as u64,
            ny: settings.ny as u64,
            nu: settings.nu,
            fx: settings.fx,
            fy: settings.fy,
            collision,
            rate,
            x_min: settings.x_min.into(),
            x_max: settings.x_max.into(),
            y_min: settings.y_min.into(),
            y_max: settings.y_max.into(),
            floor: settings.floor,
        }
    }
}
