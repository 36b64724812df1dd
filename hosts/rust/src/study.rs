use crate::{Checkpoint, Obstacle, Refusal, Settings, Tally, checkpoint, ffi};
use std::error::Error;
use std::fmt;

/// Settings and the buffers that go with them.
///
/// Entry (x, y, i) of the populations and of the post-collision buffer stands at `x + y * nx + i * nx * ny`. A new study's
/// buffers hold zeros.
#[derive(Clone, Debug)]
pub struct Study {
    settings: Settings,
    f: Vec<f64>,
    post: Vec<f64>,
    u: Vec<f64>,
}

/// Whether streaming with faces copies every post-collision entry.
#[derive(Clone, Copy, Debug, PartialEq, Eq)]
pub enum Lossless {
    /// It does.
    Lossless,
    /// It does not: this is the entry with the smallest index that no final entry is copied from.
    Lossy {
        /// The entry's column.
        x: usize,
        /// The entry's row.
        y: usize,
        /// The entry's direction.
        direction: usize,
    },
}

/// How a steady run ended.
#[derive(Clone, Copy, Debug, PartialEq)]
pub struct Steady {
    /// Whether the last residual was below the tolerance; else the steps ran out.
    pub settled: bool,
    /// Steps taken.
    pub steps: u64,
    /// The last residual; infinite if no check took place.
    pub residual: f64,
}

/// A cell whose density or a velocity component is not finite.
#[derive(Clone, Copy, Debug, PartialEq)]
pub struct BadCell {
    /// The cell's column.
    pub x: usize,
    /// The cell's row.
    pub y: usize,
    /// Its density.
    pub density: f64,
    /// Its velocity.
    pub velocity: [f64; 2],
}

impl fmt::Display for BadCell {
    fn fmt(&self, out: &mut fmt::Formatter) -> fmt::Result {
        let BadCell { x, y, density, velocity: [ux, uy] } = self;
        write!(out, "x {x}, y {y}, with density {density:?} and velocity ({ux:?}, {uy:?})")
    }
}

/// Settings or a checkpoint for a study have other sides than its buffers.
#[derive(Clone, Copy, Debug, PartialEq, Eq)]
pub struct OtherSides {
    /// The study's own, nx and ny.
    pub has: (usize, usize),
    /// Those of the settings or of the checkpoint.
    pub given: (usize, usize),
}

impl fmt::Display for OtherSides {
    fn fmt(&self, out: &mut fmt::Formatter) -> fmt::Result {
        let OtherSides { has, given } = self;
        write!(out, "the study is {} by {} and stays so; what it is given is {} by {}", has.0, has.1, given.0, given.1)
    }
}

impl Error for OtherSides {}

/// Whether a grid can have these sides. The library alone knows their limits: an empty buffer has the wrong length on every
/// grid, so this is refused with 2 where the sides are good, and with 1 where they are not.
pub(crate) fn are_sides(nx: usize, ny: usize) -> bool {
    let sides = ffi::Settings { nx: nx as u64, ny: ny as u64, ..ffi::Settings::default() };
    ffi::total_mass(&sides, &[]).0 != Refusal::Sides.number()
}

impl Study {
    /// A study with its buffers; refused where the sides are.
    pub fn new(settings: Settings) -> Result<Study, Refusal> {
        if !are_sides(settings.nx, settings.ny) {
            return Err(Refusal::Sides);
        }
        let cells = settings.nx * settings.ny;
        Ok(Study { settings, f: vec![0.0; 9 * cells], post: vec![0.0; 9 * cells], u: vec![0.0; 2 * cells] })
    }

    /// The settings as the library reads them.
    fn words(&self) -> ffi::Settings {
        (&self.settings).into()
    }

    /// The settings.
    pub fn settings(&self) -> &Settings {
        &self.settings
    }

    /// Takes other settings from here on, with the same sides: the buffers are for those.
    pub fn change(&mut self, settings: Settings) -> Result<(), OtherSides> {
        self.fits((settings.nx, settings.ny))?;
        self.settings = settings;
        Ok(())
    }

    /// Takes the populations of a checkpoint, with the same sides; the other buffers stay as they are.
    pub fn load(&mut self, checkpoint: Checkpoint) -> Result<(), OtherSides> {
        self.fits(checkpoint.sides())?;
        self.f = checkpoint.into_f();
        Ok(())
    }

    fn fits(&self, given: (usize, usize)) -> Result<(), OtherSides> {
        let has = (self.settings.nx, self.settings.ny);
        if given == has { Ok(()) } else { Err(OtherSides { has, given }) }
    }

    /// The checkpoint file of the populations, with this step number: the study itself counts no steps.
    pub fn checkpoint_file(&self, step: u32) -> Result<Vec<u8>, Refusal> {
        checkpoint::file_of(&self.words(), step, &self.f)
    }

    /// The tally of the populations.
    pub fn tally(&self) -> Result<Tally, Refusal> {
        Tally::of(&self.words(), &self.f)
    }

    /// The populations.
    pub fn f(&self) -> &[f64] {
        &self.f
    }

    /// The populations, to be written.
    pub fn f_mut(&mut self) -> &mut [f64] {
        &mut self.f
    }

    /// The post-collision buffer.
    pub fn post(&self) -> &[f64] {
        &self.post
    }

    /// The post-collision buffer, to be written.
    pub fn post_mut(&mut self) -> &mut [f64] {
        &mut self.post
    }

    /// Fills the populations with the equilibria of a table: density, ux and uy of cell (x, y) at `3 * (x + y * nx)`.
    pub fn initialize(&mut self, table: &[f64]) -> Result<(), Refusal> {
        Refusal::of(ffi::initialize(&self.words(), table, &mut self.f))
    }

    /// Fills the populations with the equilibria of what `cell` says of each x and y: density, ux and uy.
    pub fn initialize_with(&mut self, cell: impl Fn(usize, usize) -> [f64; 3]) -> Result<(), Refusal> {
        let Settings { nx, ny, .. } = self.settings;
        let table: Vec<f64> = (0..ny).flat_map(|y| (0..nx).map(move |x| (x, y))).flat_map(|(x, y)| cell(x, y)).collect();
        self.initialize(&table)
    }

    /// Fills the populations with one equilibrium.
    pub fn initialize_uniform(&mut self, rho: f64, ux: f64, uy: f64) -> Result<(), Refusal> {
        self.initialize_with(|_, _| [rho, ux, uy])
    }

    /// The density of one cell.
    pub fn density(&self, x: usize, y: usize) -> Result<f64, Refusal> {
        let (number, rho) = ffi::density(&self.words(), &self.f, x, y);
        Refusal::of(number).map(|()| rho)
    }

    /// The velocity of one cell, half the force included; (0, 0) where its density is below the floor.
    pub fn velocity(&self, x: usize, y: usize) -> Result<[f64; 2], Refusal> {
        let (number, u) = ffi::velocity(&self.words(), &self.f, x, y);
        Refusal::of(number).map(|()| u)
    }

    /// The velocity of every cell: the two components of cell (x, y) at `2 * (x + y * nx)`.
    pub fn velocity_field(&mut self) -> Result<&[f64], Refusal> {
        Refusal::of(ffi::velocity_field(&self.words(), &self.f, &mut self.u)).map(|()| &self.u[..])
    }

    /// The velocity buffer: what the last velocity field or snapshot of a steady run left there.
    pub fn snapshot(&self) -> &[f64] {
        &self.u
    }

    /// The first cell, in the order of `x + y * nx`, whose density or a velocity component is not finite. A steady run that
    /// meets one in a snapshot is refused with 9. Refused where velocities are: for the floor, and for the force.
    pub fn first_bad_cell(&self) -> Result<Option<BadCell>, Refusal> {
        let Settings { nx, ny, .. } = self.settings;
        for cell in 0..nx * ny {
            let (x, y) = (cell % nx, cell / nx);
            let (density, velocity) = (self.density(x, y)?, self.velocity(x, y)?);
            if !density.is_finite() || velocity.iter().any(|component| !component.is_finite()) {
                return Ok(Some(BadCell { x, y, density, velocity }));
            }
        }
        Ok(None)
    }

    /// The sum of all densities.
    pub fn total_mass(&self) -> Result<f64, Refusal> {
        let (number, mass) = ffi::total_mass(&self.words(), &self.f);
        Refusal::of(number).map(|()| mass)
    }

    /// The kinetic energy of all cells.
    pub fn kinetic_energy(&self) -> Result<f64, Refusal> {
        let (number, energy) = ffi::kinetic_energy(&self.words(), &self.f);
        Refusal::of(number).map(|()| energy)
    }

    /// All populations of one direction.
    pub fn plane(&self, direction: usize) -> Result<&[f64], Refusal> {
        let (number, [start, count]) = ffi::plane(&self.words(), &self.f, direction);
        Refusal::of(number).map(|()| &self.f[start as usize..][..count as usize])
    }

    /// Streams the post-collision buffer into the populations, then applies the faces.
    pub fn stream_with_faces(&mut self) -> Result<(), Refusal> {
        Refusal::of(ffi::stream_with_faces(&self.words(), &self.post, &mut self.f))
    }

    /// Whether streaming with faces loses an entry.
    pub fn lossless(&self) -> Result<Lossless, Refusal> {
        let (number, [lossless, x, y, direction]) = ffi::lossless(&self.words());
        Refusal::of(number).map(|()| match lossless {
            1 => Lossless::Lossless,
            _ => Lossless::Lossy { x: x as usize, y: y as usize, direction: direction as usize },
        })
    }

    /// Leaves in its buffer the one post-collision buffer from which streaming with faces gives these populations.
    pub fn reverse(&mut self) -> Result<(), Refusal> {
        Refusal::of(ffi::reverse(&self.words(), &self.f, &mut self.post))
    }

    /// One step: collides, then streams with faces.
    pub fn step(&mut self) -> Result<(), Refusal> {
        Refusal::of(ffi::step(&self.words(), &mut self.f, &mut self.post))
    }

    /// So many steps.
    pub fn run(&mut self, steps: u64) -> Result<(), Refusal> {
        Refusal::of(ffi::run(&self.words(), steps, &mut self.f, &mut self.post))
    }

    /// Swaps the populations of each cell of the list, which ascends strictly by x + y·nx, with their opposites: a wall in those
    /// cells throws them back. A second call with the same list undoes the first.
    pub fn set_no_slip_bc(&mut self, list: &[Obstacle]) -> Result<(), Refusal> {
        Refusal::of(ffi::set_no_slip_bc(&self.words(), list, &mut self.f))
    }

    /// Asks whether [`Study::run_past`] would be refused with this list, and changes nothing: two calls, the second of which undoes
    /// the first.
    pub fn ask_past(&mut self, list: &[Obstacle]) -> Result<(), Refusal> {
        self.run(0)?;
        self.set_no_slip_bc(list)?;
        self.set_no_slip_bc(list)
    }

    /// So many steps, with [`Study::set_no_slip_bc`] after each; without obstacles, as [`Study::run`] takes them. A list that is
    /// refused is told after the first step: [`Study::ask_past`] tells it before.
    pub fn run_past(&mut self, list: &[Obstacle], steps: u64) -> Result<(), Refusal> {
        if list.is_empty() {
            return self.run(steps);
        }
        for _ in 0..steps {
            self.step()?;
            self.set_no_slip_bc(list)?;
        }
        Ok(())
    }

    /// Steps until the velocities change by less than the tolerance from one check to the next, relative to the highest.
    pub fn run_to_steady_state(&mut self, tolerance: f64, max_steps: u64, check_every: u64) -> Result<Steady, Refusal> {
        let (words, f, post, u) = (self.words(), &mut self.f, &mut self.post, &mut self.u);
        let (number, [settled, steps, residual]) =
            ffi::run_to_steady_state(&words, tolerance, max_steps, check_every, f, post, u);
        match Refusal::of(number) {
            Ok(()) => Ok(Steady { settled: settled == 1, steps, residual: f64::from_bits(residual) }),
            Err(Refusal::BadSnapshot { .. }) => Err(Refusal::BadSnapshot { steps }),
            Err(refusal) => Err(refusal),
        }
    }
}
