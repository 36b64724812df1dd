//! One call of the library, with all that it is given.

use crate::made::Made;
use crate::rules;
use brothwagon::ffi;
use source::d2q9::W;
use std::fmt;

#[derive(Clone, Copy, Debug, PartialEq, Eq)]
pub enum Operation {
    Initialize,
    Density,
    Velocity,
    VelocityField,
    TotalMass,
    KineticEnergy,
    Plane,
    StreamWithFaces,
    Lossless,
    Reverse,
    Step,
    Run,
    RunToSteadyState,
    SetNoSlipBc,
}

pub const OPERATIONS: [Operation; 14] = [
    Operation::Initialize,
    Operation::Density,
    Operation::Velocity,
    Operation::VelocityField,
    Operation::TotalMass,
    Operation::KineticEnergy,
    Operation::Plane,
    Operation::StreamWithFaces,
    Operation::Lossless,
    Operation::Reverse,
    Operation::Step,
    Operation::Run,
    Operation::RunToSteadyState,
    Operation::SetNoSlipBc,
];

/// The lent buffers.
pub const F: usize = 0;
pub const POST: usize = 1;
pub const U: usize = 2;
pub const TABLE: usize = 3;
pub const BUFFERS: [&str; 4] = ["f", "post", "u", "table"];

/// Entries of each buffer for one cell.
const A_CELL: [usize; 4] = [9, 9, 2, 3];

/// Entries behind a lent buffer that no call may touch.
pub const GUARD: usize = 8;

impl Operation {
    /// The buffers that it is lent.
    pub fn lent(self) -> &'static [usize] {
        match self {
            Operation::Initialize => &[F, TABLE],
            Operation::VelocityField => &[F, U],
            Operation::StreamWithFaces | Operation::Reverse | Operation::Step | Operation::Run => &[F, POST],
            Operation::RunToSteadyState => &[F, POST, U],
            Operation::Lossless => &[],
            _ => &[F],
        }
    }

    pub fn reads_velocities(self) -> bool {
        matches!(self, Operation::Velocity | Operation::VelocityField | Operation::KineticEnergy | Operation::RunToSteadyState)
    }

    pub fn collides(self) -> bool {
        matches!(self, Operation::Step | Operation::Run | Operation::RunToSteadyState)
    }
}

/// What the lent buffers hold before the call.
#[derive(Clone, Copy, Debug, PartialEq, Eq)]
pub enum Start {
    /// An ordinary flow, off its equilibrium.
    Flow,
    /// Densities of both signs about the floor.
    Thin,
    /// Densities that are the floor, a number next to it, or the negative of one, to the last bit.
    AtFloor,
    /// Numbers whose squares overflow.
    Huge,
    /// An ordinary flow at a density so large that some cells' densities overflow, and their velocities do not.
    Dense,
    /// The same below 0, where every velocity reads (0, 0).
    DenseBelow,
    /// Any bits.
    Bits,
    /// Only special numbers.
    Special,
    /// An ordinary flow with a special number here and there.
    Sprinkled,
    /// -0.0, nearly everywhere.
    MinusZeros,
    /// -0.0 everywhere.
    AllMinusZeros,
}

impl Start {
    /// An entry of a direction with this weight, where the floor is this one.
    fn entry(self, made: &mut Made, weight: f64, floor: f64) -> f64 {
        match self {
            Start::Flow => weight * made.between(0.8, 1.2),
            Start::Thin => weight * made.between(-6.0, 6.0) * floor,
            Start::AtFloor => made.next_to(floor),
            Start::Huge => made.huge(),
            Start::Dense => 1.6e308 * weight * made.between(0.8, 1.2),
            Start::DenseBelow => -1.6e308 * weight * made.between(0.8, 1.2),
            Start::Bits => made.bits(),
            Start::Special => made.special(),
            Start::Sprinkled if made.one_in(64) => made.special(),
            Start::Sprinkled => weight * made.between(0.8, 1.2),
            Start::MinusZeros if made.one_in(32) => made.special(),
            Start::MinusZeros | Start::AllMinusZeros => -0.0,
        }
    }
}

#[derive(Clone, PartialEq)]
pub struct Case {
    pub operation: Operation,
    pub settings: ffi::Settings,
    /// The magic number that the settings' minus rate comes from, if one does.
    pub magic: Option<f64>,
    pub start: Start,
    /// What the buffers are made from.
    pub seed: u64,
    /// Entries that each lent buffer has too many.
    pub extra: [i64; 4],
    pub x: usize,
    pub y: usize,
    pub direction: usize,
    pub list: Vec<ffi::Obstacle>,
    /// The steps of a run, or those before obstacles throw back.
    pub steps: u64,
    pub check_every: u64,
    pub tolerance: f64,
}

impl Case {
    /// Whether the rules allow a grid of these sides.
    pub fn has_grid(&self) -> bool {
        let ffi::Settings { nx, ny, .. } = self.settings;
        let side = 1..=4096;
        side.contains(&nx) && side.contains(&ny) && nx * ny <= 1_048_576
    }

    /// Cells of the grid. Where there is none of these sides, the buffers are as for a grid of four.
    pub fn cells(&self) -> usize {
        if self.has_grid() { (self.settings.nx * self.settings.ny) as usize } else { 4 }
    }

    /// The length that a buffer should have.
    pub fn right_length(&self, buffer: usize) -> usize {
        A_CELL[buffer] * self.cells()
    }

    /// The length that it is lent with.
    pub fn length(&self, buffer: usize) -> usize {
        self.right_length(buffer).saturating_add_signed(self.extra[buffer] as isize)
    }

    /// Makes what a buffer holds before the call, and the entries behind it.
    pub fn fill(&self, buffer: usize, into: &mut Vec<f64>) {
        let mut made = Made::of(self.seed, buffer as u64);
        let (length, cells) = (self.length(buffer), self.cells());
        let entry = |made: &mut Made, weight| self.start.entry(made, weight, self.settings.floor);
        into.resize(length + GUARD, 0.0);
        match buffer {
            F | POST if self.start == Start::AtFloor => self.fill_at_floor(&mut made, &mut into[..length]),
            F | POST => {
                for (direction, plane) in into[..length].chunks_mut(cells).enumerate() {
                    let weight = W[direction % 9];
                    plane.fill_with(|| entry(&mut made, weight));
                }
            }
            TABLE if matches!(self.start, Start::Flow | Start::Sprinkled) => {
                for cell in into[..length].chunks_mut(3) {
                    cell.fill_with(|| entry(&mut made, 0.1));
                    cell[0] = entry(&mut made, 1.0);
                }
            }
            _ => into[..length].fill_with(|| entry(&mut made, 1.0)),
        }
        into[length..].fill_with(|| made.bits());
    }

    /// Fills populations, as far as they go, so that the sum of each cell's is exact.
    fn fill_at_floor(&self, made: &mut Made, populations: &mut [f64]) {
        populations.fill(0.0);
        for cell in 0..self.cells() {
            let density = self.start.entry(made, 1.0, self.settings.floor);
            // All in one direction, or three quarters in one and the rest, which is exact, in another.
            let part = made.pick(&[1.0, 0.75]) * density;
            for part in [part, density - part] {
                let direction = made.below(9) as usize;
                if let Some(entry) = populations.get_mut(cell + direction * self.cells()) {
                    *entry += part;
                }
            }
        }
    }

    /// The run that comes before the call, so that obstacles also throw back what steps have made.
    pub fn before(&self) -> Option<Case> {
        let comes_first = self.operation == Operation::SetNoSlipBc && self.steps > 0;
        let run = comes_first.then(|| Case { operation: Operation::Run, ..self.clone() });
        run.filter(|run| rules::number(run) == 0)
    }

    /// The four faces, in the order in which they are applied.
    pub fn faces(&self) -> [ffi::Face; 4] {
        let ffi::Settings { x_min, x_max, y_min, y_max, .. } = self.settings;
        [x_min, x_max, y_min, y_max]
    }

    /// One of the four, to be changed.
    pub fn face_mut(&mut self, at: usize) -> &mut ffi::Face {
        let ffi::Settings { x_min, x_max, y_min, y_max, .. } = &mut self.settings;
        [x_min, x_max, y_min, y_max][at]
    }
}

impl fmt::Display for Case {
    fn fmt(&self, out: &mut fmt::Formatter) -> fmt::Result {
        let s = &self.settings;
        writeln!(out, "{:?} on {} by {}", self.operation, s.nx, s.ny)?;
        writeln!(out, "  nu {:?}, force ({:?}, {:?}), floor {:?}", s.nu, s.fx, s.fy, s.floor)?;
        let magic = self.magic.map(|magic| format!(", of magic number {magic:?}")).unwrap_or_default();
        match s.collision {
            0 => writeln!(out, "  Bgk")?,
            1 => writeln!(out, "  Mrt")?,
            2 => writeln!(out, "  Trt({:?}){magic}", s.rate)?,
            other => writeln!(out, "  collision of kind {other}")?,
        }
        for (name, face) in ["x min", "x max", "y min", "y max"].iter().zip(self.faces()) {
            writeln!(out, "  {name} {}", face_name(face))?;
        }
        write!(
            out,
            "  start {:?}, made from {:#x}; entries too many {:?}{}",
            self.start,
            self.seed,
            self.extra,
            self.arguments()
        )
    }
}

impl Case {
    /// The arguments that the operation takes beside settings and buffers.
    fn arguments(&self) -> String {
        match self.operation {
            Operation::Density | Operation::Velocity => format!("\n  x {}, y {}", self.x, self.y),
            Operation::Plane => format!("\n  direction {}", self.direction),
            Operation::Run => format!("\n  steps {}", self.steps),
            Operation::RunToSteadyState => {
                format!("\n  steps {}, check every {}, tolerance {:?}", self.steps, self.check_every, self.tolerance)
            }
            Operation::SetNoSlipBc => {
                let steps = self.before().map_or(0, |run| run.steps);
                format!("\n  steps before {steps}, obstacles {}{}", self.list.len(), first_places(&self.list))
            }
            _ => String::new(),
        }
    }
}

/// The places of a list's first obstacles.
fn first_places(list: &[ffi::Obstacle]) -> String {
    const MOST: usize = 24;
    let places = list.iter().take(MOST).map(|obstacle| format!(" ({}, {})", obstacle.x, obstacle.y));
    places.chain((list.len() > MOST).then(|| " ..".to_string())).collect()
}

fn face_name(face: ffi::Face) -> String {
    let ffi::Face { kind, a, b } = face;
    match kind {
        0 => "Periodic".into(),
        1 => "NoSlip".into(),
        2 => format!("MovingWall({a:?}, {b:?})"),
        3 => "Symmetry".into(),
        4 => format!("Velocity({a:?}, {b:?})"),
        5 => format!("Pressure({a:?})"),
        _ => format!("of kind {kind}"),
    }
}
