//! What is timed: closed boxes of several sides, kinds of collision and starts.

use brothwagon::{Collision, Face, MAGIC_BOUNCE_BACK, Settings, ffi};
use std::fmt;

/// The viscosity of every study here.
const NU: f64 = 0.05;

/// The force of a study with a force.
const FORCE: f64 = 1e-5;

/// The kinds of collision, as a word and as a title.
pub const KINDS: [(&str, &str); 3] = [("trt", "Trt"), ("bgk", "Bgk"), ("mrt", "Mrt")];

/// A line of the table.
#[derive(Clone, Copy, Debug, PartialEq)]
pub struct Study {
    pub side: usize,
    /// The density, about which the start spreads by a hundredth.
    pub density: u32,
    /// The place in [`KINDS`].
    pub kind: usize,
    pub forced: bool,
}

impl fmt::Display for Study {
    fn fmt(&self, out: &mut fmt::Formatter) -> fmt::Result {
        write!(out, "{0} by {0}, density {1}, {2}", self.side, self.density, self.title())
    }
}

impl Study {
    /// The kind of collision, and whether there is a force.
    pub fn title(&self) -> String {
        format!("{}{}", KINDS[self.kind].1, if self.forced { ", force" } else { "" })
    }

    /// The study in four words, and back.
    pub fn words(&self) -> String {
        format!("{} {} {} {}", self.side, self.density, self.kind, u8::from(self.forced))
    }

    pub fn read(words: &[&str]) -> Option<Study> {
        let [side, density, kind, forced] = words else { return None };
        Some(Study {
            side: side.parse().ok()?,
            density: density.parse().ok()?,
            kind: kind.parse().ok().filter(|&kind: &usize| kind < KINDS.len())?,
            forced: *forced == "1",
        })
    }

    pub fn cells(&self) -> usize {
        self.side * self.side
    }

    /// A closed box.
    pub fn settings(&self) -> ffi::Settings {
        let collision = match KINDS[self.kind].0 {
            "bgk" => Collision::Bgk,
            "mrt" => Collision::Mrt,
            _ => Collision::trt_with_magic(NU, MAGIC_BOUNCE_BACK),
        };
        let fx = if self.forced { FORCE } else { 0.0 };
        let wall = Face::NoSlip;
        let faces = Settings { x_min: wall, x_max: wall, y_min: wall, y_max: wall, ..Settings::new(self.side, self.side, NU) };
        (&Settings { fx, collision, ..faces }).into()
    }

    /// Populations of a flow in which no two cells are alike.
    pub fn start(&self) -> Vec<f64> {
        // Steps of the golden ratio through the unit interval: spread out, and the same on every machine.
        let spread = |at: usize| (at as f64 * 0.618_033_988_749_894_9).fract() - 0.5;
        let density = f64::from(self.density);
        let cell = |at| [density * (1.0 + 0.02 * spread(at)), 0.1 * spread(at + 1), 0.1 * spread(7 * at)];
        let table: Vec<f64> = (0..self.cells()).flat_map(cell).collect();
        let mut f = vec![0.0; 9 * self.cells()];
        assert_eq!(ffi::initialize(&self.settings(), &table, &mut f), 0);
        f
    }
}
