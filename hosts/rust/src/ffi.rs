//! The C interface (include/brothwagon.h), each function as a safe one over slices.
//!
//! [`Study`](crate::Study) stands on these. They answer the bare number, and take settings as the library reads them, kinds
//! that it does not know included: for hosts that lend buffers of their own.

use crate::FLOOR;

/// One face, as the library reads it: [`Face`](crate::Face) has the meaning of each kind.
#[repr(C)]
#[derive(Clone, Copy, Debug, Default, PartialEq)]
pub struct Face {
    /// 0 Periodic, 1 NoSlip, 2 MovingWall, 3 Symmetry, 4 Velocity, 5 Pressure; any other is refused with 5 where faces
    /// are tested.
    pub kind: u64,
    /// The kind's first number, where it has one.
    pub a: f64,
    /// The kind's second number, where it has one.
    pub b: f64,
}

/// Settings, as the library reads them: [`Settings`](crate::Settings) has the meaning of each field.
#[allow(missing_docs)]
#[repr(C)]
#[derive(Clone, Copy, Debug, PartialEq)]
pub struct Settings {
    pub nx: u64,
    pub ny: u64,
    pub nu: f64,
    pub fx: f64,
    pub fy: f64,
    /// 0 Bgk, 1 Mrt, 2 Trt; any other is refused with 3 where there is a collision.
    pub collision: u64,
    /// The minus rate, of Trt alone.
    pub rate: f64,
    pub x_min: Face,
    pub x_max: Face,
    pub y_min: Face,
    pub y_max: Face,
    pub floor: f64,
}

// The library reads the settings as 20 words.
const _: () = assert!(size_of::<Settings>() == 20 * 8);

impl Default for Settings {
    /// Zeros, but for the floor, which is 1e-12: 0.0 is refused.
    fn default() -> Settings {
        let face = Face::default();
        Settings {
            nx: 0,
            ny: 0,
            nu: 0.0,
            fx: 0.0,
            fy: 0.0,
            collision: 0,
            rate: 0.0,
            x_min: face,
            x_max: face,
            y_min: face,
            y_max: face,
            floor: FLOOR,
        }
    }
}

/// A cell of the grid that an obstacle fills.
#[repr(C)]
#[derive(Clone, Copy, Debug, Default, PartialEq, Eq)]
pub struct Obstacle {
    /// The cell's column.
    pub x: usize,
    /// The cell's row.
    pub y: usize,
}

// The library reads an obstacle as two words.
const _: () = assert!(size_of::<Obstacle>() == 2 * 8);

/// What a small answer array holds before the call, so that an answer that was not written shows.
const UNWRITTEN: u64 = u64::MAX;

mod c {
    use super::{Obstacle, Settings};

    unsafe extern "C" {
        pub fn brothwagon_initialize(s: *const Settings, table: *const f64, tables: usize, f: *mut f64, fs: usize) -> u32;
        pub fn brothwagon_density(s: *const Settings, f: *const f64, fs: usize, x: usize, y: usize, rho: *mut f64) -> u32;
        pub fn brothwagon_velocity(s: *const Settings, f: *const f64, fs: usize, x: usize, y: usize, u: *mut f64) -> u32;
        pub fn brothwagon_velocity_field(s: *const Settings, f: *const f64, fs: usize, u: *mut f64, us: usize) -> u32;
        pub fn brothwagon_total_mass(s: *const Settings, f: *const f64, fs: usize, mass: *mut f64) -> u32;
        pub fn brothwagon_kinetic_energy(s: *const Settings, f: *const f64, fs: usize, energy: *mut f64) -> u32;
        pub fn brothwagon_plane(s: *const Settings, f: *const f64, fs: usize, direction: usize, part: *mut u64) -> u32;
        pub fn brothwagon_stream_with_faces(s: *const Settings, post: *const f64, posts: usize, f: *mut f64, fs: usize) -> u32;
        pub fn brothwagon_lossless(s: *const Settings, answer: *mut u64) -> u32;
        pub fn brothwagon_reverse(s: *const Settings, f: *const f64, fs: usize, post: *mut f64, posts: usize) -> u32;
        pub fn brothwagon_step(s: *const Settings, f: *mut f64, fs: usize, post: *mut f64, posts: usize) -> u32;
        pub fn brothwagon_run(s: *const Settings, steps: u64, f: *mut f64, fs: usize, post: *mut f64, posts: usize) -> u32;
        pub fn brothwagon_run_to_steady_state(
            s: *const Settings,
            tolerance: f64,
            max_steps: u64,
            check_every: u64,
            f: *mut f64,
            fs: usize,
            post: *mut f64,
            posts: usize,
            u: *mut f64,
            us: usize,
            answer: *mut u64,
        ) -> u32;
        pub fn brothwagon_set_no_slip_bc(
            s: *const Settings,
            list: *const Obstacle,
            obstacles: usize,
            f: *mut f64,
            fs: usize,
        ) -> u32;
        pub fn brothwagon_write_checkpoint(
            s: *const Settings,
            step: u32,
            f: *const f64,
            fs: usize,
            file: *mut u8,
            files: usize,
        ) -> u32;
        pub fn brothwagon_checkpoint_sides(file: *const u8, files: usize, answer: *mut u64) -> u32;
        pub fn brothwagon_read_checkpoint(file: *const u8, files: usize, f: *mut f64, fs: usize, answer: *mut u64) -> u32;
        pub fn brothwagon_tally(s: *const Settings, f: *const f64, fs: usize, tally: *mut u64) -> u32;
        pub fn brothwagon_write_entry(
            s: *const Settings,
            x: usize,
            y: usize,
            direction: usize,
            pattern: u64,
            f: *mut f64,
            fs: usize,
            tally: *mut u64,
        ) -> u32;
        pub fn brothwagon_write_tally(tally: *const u64, file: *mut u8, files: usize) -> u32;
        pub fn brothwagon_read_tally(file: *const u8, files: usize, tally: *mut u64, tallies: usize) -> u32;
    }
}

// Safety, of every call below: each pointer is to a live slice, array or struct, with its own length beside it where the
// header has one, and so neither null nor out of alignment, even if empty; what the library writes is borrowed as `&mut`, so
// nothing overlaps; and every bit pattern is an f64.

/// Fills `f` with the equilibria of the table.
pub fn initialize(s: &Settings, table: &[f64], f: &mut [f64]) -> u32 {
    unsafe { c::brothwagon_initialize(s, table.as_ptr(), table.len(), f.as_mut_ptr(), f.len()) }
}

/// The number, and the density of one cell.
pub fn density(s: &Settings, f: &[f64], x: usize, y: usize) -> (u32, f64) {
    let mut rho = f64::from_bits(UNWRITTEN);
    let number = unsafe { c::brothwagon_density(s, f.as_ptr(), f.len(), x, y, &mut rho) };
    (number, rho)
}

/// The number, and the velocity of one cell.
pub fn velocity(s: &Settings, f: &[f64], x: usize, y: usize) -> (u32, [f64; 2]) {
    let mut u = [f64::from_bits(UNWRITTEN); 2];
    let number = unsafe { c::brothwagon_velocity(s, f.as_ptr(), f.len(), x, y, u.as_mut_ptr()) };
    (number, u)
}

/// The velocity of every cell, into `u`.
pub fn velocity_field(s: &Settings, f: &[f64], u: &mut [f64]) -> u32 {
    unsafe { c::brothwagon_velocity_field(s, f.as_ptr(), f.len(), u.as_mut_ptr(), u.len()) }
}

/// The number, and the sum of all densities.
pub fn total_mass(s: &Settings, f: &[f64]) -> (u32, f64) {
    let mut mass = f64::from_bits(UNWRITTEN);
    let number = unsafe { c::brothwagon_total_mass(s, f.as_ptr(), f.len(), &mut mass) };
    (number, mass)
}

/// The number, and the kinetic energy.
pub fn kinetic_energy(s: &Settings, f: &[f64]) -> (u32, f64) {
    let mut energy = f64::from_bits(UNWRITTEN);
    let number = unsafe { c::brothwagon_kinetic_energy(s, f.as_ptr(), f.len(), &mut energy) };
    (number, energy)
}

/// The number, and the start and count of one direction's entries in `f`.
pub fn plane(s: &Settings, f: &[f64], direction: usize) -> (u32, [u64; 2]) {
    let mut part = [UNWRITTEN; 2];
    let number = unsafe { c::brothwagon_plane(s, f.as_ptr(), f.len(), direction, part.as_mut_ptr()) };
    (number, part)
}

/// Streams `post` into `f`, then applies the faces.
pub fn stream_with_faces(s: &Settings, post: &[f64], f: &mut [f64]) -> u32 {
    unsafe { c::brothwagon_stream_with_faces(s, post.as_ptr(), post.len(), f.as_mut_ptr(), f.len()) }
}

/// The number, and 1 if the faces are lossless, else 0 and the lowest lost entry's x, y and direction.
pub fn lossless(s: &Settings) -> (u32, [u64; 4]) {
    let mut answer = [UNWRITTEN; 4];
    let number = unsafe { c::brothwagon_lossless(s, answer.as_mut_ptr()) };
    (number, answer)
}

/// Leaves in `post` the one post-collision buffer from which streaming with faces gives `f`.
pub fn reverse(s: &Settings, f: &[f64], post: &mut [f64]) -> u32 {
    unsafe { c::brothwagon_reverse(s, f.as_ptr(), f.len(), post.as_mut_ptr(), post.len()) }
}

/// One step.
pub fn step(s: &Settings, f: &mut [f64], post: &mut [f64]) -> u32 {
    unsafe { c::brothwagon_step(s, f.as_mut_ptr(), f.len(), post.as_mut_ptr(), post.len()) }
}

/// So many steps.
pub fn run(s: &Settings, steps: u64, f: &mut [f64], post: &mut [f64]) -> u32 {
    unsafe { c::brothwagon_run(s, steps, f.as_mut_ptr(), f.len(), post.as_mut_ptr(), post.len()) }
}

/// The number, and 1 if settled, the number of steps taken and the residual's pattern.
pub fn run_to_steady_state(
    s: &Settings,
    tolerance: f64,
    max_steps: u64,
    check_every: u64,
    f: &mut [f64],
    post: &mut [f64],
    u: &mut [f64],
) -> (u32, [u64; 3]) {
    let mut answer = [UNWRITTEN; 3];
    let number = unsafe {
        c::brothwagon_run_to_steady_state(
            s,
            tolerance,
            max_steps,
            check_every,
            f.as_mut_ptr(),
            f.len(),
            post.as_mut_ptr(),
            post.len(),
            u.as_mut_ptr(),
            u.len(),
            answer.as_mut_ptr(),
        )
    };
    (number, answer)
}

/// Swaps the populations of each cell of the list, which ascends strictly by x + y·nx, with their opposites.
pub fn set_no_slip_bc(s: &Settings, list: &[Obstacle], f: &mut [f64]) -> u32 {
    unsafe { c::brothwagon_set_no_slip_bc(s, list.as_ptr(), list.len(), f.as_mut_ptr(), f.len()) }
}

/// Writes the checkpoint file of `f`, with that step number, into `file`.
pub fn write_checkpoint(s: &Settings, step: u32, f: &[f64], file: &mut [u8]) -> u32 {
    unsafe { c::brothwagon_write_checkpoint(s, step, f.as_ptr(), f.len(), file.as_mut_ptr(), file.len()) }
}

/// The number, and a checkpoint file's nx, ny and step number.
pub fn checkpoint_sides(file: &[u8]) -> (u32, [u64; 3]) {
    let mut answer = [UNWRITTEN; 3];
    let number = unsafe { c::brothwagon_checkpoint_sides(file.as_ptr(), file.len(), answer.as_mut_ptr()) };
    (number, answer)
}

/// Reads a checkpoint file into `f`: the number, and the file's nx, ny and step number.
pub fn read_checkpoint(file: &[u8], f: &mut [f64]) -> (u32, [u64; 3]) {
    let mut answer = [UNWRITTEN; 3];
    let number =
        unsafe { c::brothwagon_read_checkpoint(file.as_ptr(), file.len(), f.as_mut_ptr(), f.len(), answer.as_mut_ptr()) };
    (number, answer)
}

/// The number, and the tally of `f`: the sum of all patterns, wrapping, and those of the nine directions' planes.
pub fn tally(s: &Settings, f: &[f64]) -> (u32, [u64; 10]) {
    let mut tally = [UNWRITTEN; 10];
    let number = unsafe { c::brothwagon_tally(s, f.as_ptr(), f.len(), tally.as_mut_ptr()) };
    (number, tally)
}

/// Writes one entry of `f`, and moves the tally's first number and that plane's by the new pattern less the old.
pub fn write_entry(
    s: &Settings,
    x: usize,
    y: usize,
    direction: usize,
    pattern: u64,
    f: &mut [f64],
    tally: &mut [u64; 10],
) -> u32 {
    unsafe { c::brothwagon_write_entry(s, x, y, direction, pattern, f.as_mut_ptr(), f.len(), tally.as_mut_ptr()) }
}

/// Writes the tally file of these numbers into `file`.
pub fn write_tally(tally: &[u64; 10], file: &mut [u8]) -> u32 {
    unsafe { c::brothwagon_write_tally(tally.as_ptr(), file.as_mut_ptr(), file.len()) }
}

/// Reads a tally file into `tally`.
pub fn read_tally(file: &[u8], tally: &mut [u64]) -> u32 {
    unsafe { c::brothwagon_read_tally(file.as_ptr(), file.len(), tally.as_mut_ptr(), tally.len()) }
}
