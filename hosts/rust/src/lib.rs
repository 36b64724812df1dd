//! Brothwagon: the D2Q9 lattice Boltzmann solver, proved, for Rust.
//!
//! The arithmetic is the proved library's; this crate lends it buffers and turns its numbers into a [`Refusal`]. Every
//! operation ends on every input, and a refused one leaves every buffer as it was, but for a steady run that meets a bad
//! snapshot (number 9). A state is stored and passed on as a [`Checkpoint`], with its [`Tally`] beside it. The floating-point
//! mode is the caller's, and must be the usual one: include/brothwagon.h says which.
//!
//! A cavity whose lid moves to the right:
//!
//! ```
//! use brothwagon::{Face, Settings, Study};
//!
//! let mut study = Study::new(Settings {
//!     x_min: Face::NoSlip,
//!     x_max: Face::NoSlip,
//!     y_min: Face::NoSlip,
//!     y_max: Face::MovingWall(0.1, 0.0),
//!     ..Settings::new(32, 32, 0.02)
//! })?;
//! study.initialize_uniform(1.0, 0.0, 0.0)?;
//! study.run(200)?;
//!
//! let [below_the_lid, _] = study.velocity(16, 31)?;
//! assert!(0.0 < below_the_lid && below_the_lid < 0.1);
//! assert!((study.total_mass()? - 1024.0).abs() < 1e-9);
//! # Ok::<(), brothwagon::Refusal>(())
//! ```
//!
//! A refusal says why:
//!
//! ```
//! use brothwagon::{Refusal, Settings, Study};
//!
//! let refusal = Study::new(Settings::new(4097, 1, 0.02)).unwrap_err();
//! assert_eq!(refusal, Refusal::Sides);
//! assert!(refusal.to_string().starts_with("refused with number 1: a side"));
//! ```

#![deny(missing_docs, unsafe_code)]

mod checkpoint;
#[allow(unsafe_code)]
pub mod ffi;
mod file;
mod fingerprint;
#[allow(unsafe_code)]
mod level;
mod obstacles;
mod refusal;
mod settings;
mod study;
mod tally;

pub use checkpoint::Checkpoint;
pub use ffi::Obstacle;
pub use file::{Start, StudyFile, Wrong};
pub use fingerprint::fingerprint;
pub use level::level;
pub use refusal::Refusal;
pub use settings::{Collision, FLOOR, Face, MAGIC_BOUNCE_BACK, Settings, trt_omega_minus};
pub use study::{BadCell, Lossless, OtherSides, Steady, Study};
pub use tally::Tally;
