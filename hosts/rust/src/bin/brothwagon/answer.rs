//! The form of an answer.

use crate::failure::Failure;
use brothwagon::{Study, fingerprint};
use std::fmt::Display;
use std::io::{self, Write};

pub fn title(out: &mut impl Write, path: &str, study: &Study) -> io::Result<()> {
    writeln!(out, "{path}: {} by {}", study.settings().nx, study.settings().ny)
}

pub fn line(out: &mut impl Write, name: &str, value: impl Display) -> io::Result<()> {
    writeln!(out, "  {name:<18}{value}")
}

/// The shortest decimal that stands for this number alone.
pub fn exact(number: f64) -> String {
    format!("{number:?}")
}

pub fn state(out: &mut impl Write, study: &Study) -> Result<(), Failure> {
    line(out, "mass", exact(study.total_mass()?))?;
    line(out, "kinetic energy", exact(study.kinetic_energy()?))?;
    line(out, "fingerprint", format!("{:016x}", fingerprint(study.f())))?;
    Ok(())
}
