use crate::obstacles::{self, Block, OBSTACLE};
use crate::{Collision, FLOOR, Face, MAGIC_BOUNCE_BACK, Obstacle, Refusal, Settings, Study};
use std::error::Error;
use std::fmt;

/// What a study file says: a line for each thing, its name first; `#` starts a comment. `brothwagon --help` lists the lines.
#[derive(Clone, Debug, PartialEq)]
pub struct StudyFile {
    /// The settings.
    pub settings: Settings,
    /// The magic number that the settings' Trt rate was worked out from, if it was.
    pub magic: Option<f64>,
    /// The cells that obstacles fill, ascending by x + y·nx; none if no grid has the sides.
    pub obstacles: Vec<Obstacle>,
    /// What the populations start from.
    pub start: Start,
    /// Steps of a run, and the most of a steady run.
    pub steps: u64,
    /// The tolerance of a steady run.
    pub tolerance: f64,
    /// Steps from one check of a steady run to the next.
    pub check_every: u64,
}

/// What the populations start from: density, ux and uy, for every cell or as the height of a wave.
#[derive(Clone, Copy, Debug, PartialEq)]
pub enum Start {
    /// The same in every cell.
    Uniform(f64, f64, f64),
    /// ux is a wave over y, and uy a wave over x.
    Shear(f64, f64, f64),
}

/// What is wrong with a study file.
#[derive(Clone, Debug, PartialEq)]
pub struct Wrong {
    /// The line, counted from 1; the one after the last if a line is missing.
    pub line: usize,
    /// What should stand there.
    pub expected: String,
    /// What stands there.
    pub found: String,
}

impl fmt::Display for Wrong {
    fn fmt(&self, out: &mut fmt::Formatter) -> fmt::Result {
        write!(out, "line {}: expected {}, found {}", self.line, self.expected, self.found)
    }
}

impl Error for Wrong {}

const NAMES: &str = "sides, viscosity, force, collision, floor, x-min, x-max, y-min, y-max, obstacle, start, steps or steady";

const FACE: &str = "periodic, no-slip, moving-wall UX UY, symmetry, velocity UX UY or pressure DENSITY";

/// A Trt rate may be given by a magic number, which asks for the viscosity, on whatever line it stands.
enum Rates {
    Given(Collision),
    Magic(f64),
}

/// What has been read so far.
#[derive(Default)]
struct Draft {
    sides: Option<(usize, usize)>,
    viscosity: Option<f64>,
    force: Option<(f64, f64)>,
    collision: Option<Rates>,
    floor: Option<f64>,
    x_min: Option<Face>,
    x_max: Option<Face>,
    y_min: Option<Face>,
    y_max: Option<Face>,
    blocks: Vec<Block>,
    start: Option<Start>,
    steps: Option<u64>,
    steady: Option<(f64, u64)>,
}

impl StudyFile {
    /// Reads the text of a study file.
    pub fn read(text: &str) -> Result<StudyFile, Wrong> {
        let mut draft = Draft::default();
        // A line is wrong by itself or, as an obstacle, by the sides, which may stand below it.
        let (taken, obstacles) = (draft.take_lines(text), draft.obstacles());
        if let Some((line, expected)) = taken.err().into_iter().chain(obstacles.clone().err()).min() {
            return Err(Wrong { line, expected, found: found(text, line) });
        }
        draft.finish(obstacles.unwrap_or_default()).map_err(|missing| Wrong {
            line: text.lines().count() + 1,
            expected: format!("a line `{missing}`"),
            found: "the end".to_string(),
        })
    }

    /// A number as study files have it: `0.1875`, or a division that is rounded once, `3/16`.
    pub fn number(word: &str) -> Option<f64> {
        match word.split_once('/') {
            Some((above, below)) => Some(above.parse::<f64>().ok()? / below.parse::<f64>().ok()?),
            None => word.parse().ok(),
        }
    }

    /// The study at its start.
    pub fn started(&self) -> Result<Study, Refusal> {
        let mut study = Study::new(self.settings)?;
        study.initialize_with(|x, y| self.start.cell(self.settings.nx, self.settings.ny, x, y))?;
        Ok(study)
    }
}

/// The words of a line, without its comment.
fn words(line: &str) -> Vec<&str> {
    line.split('#').next().unwrap_or_default().split_whitespace().collect()
}

/// The words of a text's line, to be shown: on one line, and not too many.
fn found(text: &str, line: usize) -> String {
    const MOST: usize = 60;
    let said = words(text.lines().nth(line - 1).unwrap_or_default()).join(" ");
    let shown: String = said.chars().take(MOST).flat_map(char::escape_debug).collect();
    if said.chars().nth(MOST).is_some() { format!("`{shown}`..") } else { format!("`{shown}`") }
}

impl Draft {
    /// Takes the lines of a text, up to one that is not as expected: which one that is, and what was.
    fn take_lines(&mut self, text: &str) -> Result<(), (usize, String)> {
        for (line, said) in (1..).zip(text.lines()) {
            if let [name, values @ ..] = &words(said)[..] {
                self.take(line, name, values).map_err(|expected| (line, expected))?;
            }
        }
        Ok(())
    }

    fn take(&mut self, line: usize, name: &str, values: &[&str]) -> Result<(), String> {
        match name {
            "sides" => once(&mut self.sides, pair(values, whole), name, "sides NX NY, two whole numbers"),
            "viscosity" => once(&mut self.viscosity, single(values, number), name, "viscosity NUMBER"),
            "force" => once(&mut self.force, pair(values, number), name, "force FX FY"),
            "collision" => {
                once(&mut self.collision, collision(values), name, "collision bgk, mrt, trt RATE or trt magic NUMBER")
            }
            "floor" => once(&mut self.floor, single(values, number), name, "floor NUMBER"),
            "x-min" => once(&mut self.x_min, face(values), name, &format!("x-min {FACE}")),
            "x-max" => once(&mut self.x_max, face(values), name, &format!("x-max {FACE}")),
            "y-min" => once(&mut self.y_min, face(values), name, &format!("y-min {FACE}")),
            "y-max" => once(&mut self.y_max, face(values), name, &format!("y-max {FACE}")),
            "obstacle" => {
                self.blocks.push(Block::read(line, values).ok_or(OBSTACLE)?);
                Ok(())
            }
            "start" => once(&mut self.start, start(values), name, "start uniform DENSITY UX UY or start shear DENSITY UX UY"),
            "steps" => once(&mut self.steps, single(values, whole), name, "steps NUMBER, a whole one below 2^64"),
            "steady" => once(&mut self.steady, steady(values), name, "steady TOLERANCE CHECK_EVERY, the latter whole"),
            _ => Err(NAMES.to_string()),
        }
    }

    /// The cells of the obstacles, none if there are no sides to hold them to; or what is wrong, as with lines.
    fn obstacles(&self) -> Result<Vec<Obstacle>, (usize, String)> {
        self.sides.map_or(Ok(Vec::new()), |(nx, ny)| obstacles::cells(&self.blocks, nx, ny))
    }

    /// The study, with what it left out as in the solver's source: no force, Trt with 3/16, the floor 1e-12, periodic, at rest.
    fn finish(self, obstacles: Vec<Obstacle>) -> Result<StudyFile, &'static str> {
        let (nx, ny) = self.sides.ok_or("sides NX NY")?;
        let nu = self.viscosity.ok_or("viscosity NUMBER")?;
        let (fx, fy) = self.force.unwrap_or((0.0, 0.0));
        let (collision, magic) = match self.collision.unwrap_or(Rates::Magic(MAGIC_BOUNCE_BACK)) {
            Rates::Given(collision) => (collision, None),
            Rates::Magic(magic) => (Collision::trt_with_magic(nu, magic), Some(magic)),
        };
        let (tolerance, check_every) = self.steady.unwrap_or((1e-9, 100));
        Ok(StudyFile {
            settings: Settings {
                nx,
                ny,
                nu,
                fx,
                fy,
                collision,
                x_min: self.x_min.unwrap_or_default(),
                x_max: self.x_max.unwrap_or_default(),
                y_min: self.y_min.unwrap_or_default(),
                y_max: self.y_max.unwrap_or_default(),
                floor: self.floor.unwrap_or(FLOOR),
            },
            magic,
            obstacles,
            start: self.start.unwrap_or(Start::Uniform(1.0, 0.0, 0.0)),
            steps: self.steps.ok_or("steps NUMBER")?,
            tolerance,
            check_every,
        })
    }
}

/// Keeps what a line says, once.
fn once<T>(kept: &mut Option<T>, value: Option<T>, name: &str, expected: &str) -> Result<(), String> {
    if kept.is_some() {
        return Err(format!("no second line `{name}`"));
    }
    *kept = Some(value.ok_or(expected)?);
    Ok(())
}

fn single<T>(words: &[&str], read: fn(&str) -> Option<T>) -> Option<T> {
    match words {
        [word] => read(word),
        _ => None,
    }
}

fn pair<T>(words: &[&str], read: fn(&str) -> Option<T>) -> Option<(T, T)> {
    match words {
        [a, b] => Some((read(a)?, read(b)?)),
        _ => None,
    }
}

fn whole<T: std::str::FromStr>(word: &str) -> Option<T> {
    word.parse().ok()
}

fn number(word: &str) -> Option<f64> {
    StudyFile::number(word)
}

fn collision(words: &[&str]) -> Option<Rates> {
    Some(match words {
        ["bgk"] => Rates::Given(Collision::Bgk),
        ["mrt"] => Rates::Given(Collision::Mrt),
        ["trt", rate] => Rates::Given(Collision::Trt(number(rate)?)),
        ["trt", "magic", magic] => Rates::Magic(number(magic)?),
        _ => return None,
    })
}

fn face(words: &[&str]) -> Option<Face> {
    Some(match words {
        ["periodic"] => Face::Periodic,
        ["no-slip"] => Face::NoSlip,
        ["moving-wall", ux, uy] => Face::MovingWall(number(ux)?, number(uy)?),
        ["symmetry"] => Face::Symmetry,
        ["velocity", ux, uy] => Face::Velocity(number(ux)?, number(uy)?),
        ["pressure", rho] => Face::Pressure(number(rho)?),
        _ => return None,
    })
}

fn start(words: &[&str]) -> Option<Start> {
    match words {
        ["uniform", rho, ux, uy] => Some(Start::Uniform(number(rho)?, number(ux)?, number(uy)?)),
        ["shear", rho, ux, uy] => Some(Start::Shear(number(rho)?, number(ux)?, number(uy)?)),
        _ => None,
    }
}

fn steady(words: &[&str]) -> Option<(f64, u64)> {
    match words {
        [tolerance, every] => Some((number(tolerance)?, whole(every)?)),
        _ => None,
    }
}

impl Start {
    /// Density, ux and uy of cell (x, y) on a grid of nx by ny.
    pub fn cell(self, nx: usize, ny: usize, x: usize, y: usize) -> [f64; 3] {
        match self {
            Start::Uniform(rho, ux, uy) => [rho, ux, uy],
            Start::Shear(rho, ux, uy) => [rho, ux * wave(y, ny), uy * wave(x, nx)],
        }
    }
}

/// A wave from -1 to 1, one period over `side` cells: two arcs of a parabola. Not a sine, whose last bits are the machine's.
fn wave(at: usize, side: usize) -> f64 {
    let t = 2.0 * (at as f64 + 0.5) / side as f64;
    if t < 1.0 { 4.0 * t * (1.0 - t) } else { -4.0 * (t - 1.0) * (2.0 - t) }
}

#[cfg(test)]
mod tests {
    use super::*;

    const SHORT: &str = "sides 3 2\nviscosity 0.1\nsteps 5\n";

    fn wrong(text: &str) -> String {
        StudyFile::read(text).unwrap_err().to_string()
    }

    #[test]
    fn what_is_left_out_is_as_in_the_source() {
        let study = StudyFile::read(SHORT).unwrap();
        assert_eq!(study.settings, Settings::new(3, 2, 0.1));
        assert_eq!((study.start, study.steps), (Start::Uniform(1.0, 0.0, 0.0), 5));
    }

    #[test]
    fn everything_can_be_said() {
        let text = "# all of it\ncollision trt magic 3/16 # before the viscosity\nforce 1e-5 0\nx-min velocity 0.1 0\n\
                    x-max pressure 1\ny-min no-slip\ny-max moving-wall -0.1 0\nfloor 1e-20\nstart shear 1 0.1 0.01\nsteady 1/8 7\n";
        let study = StudyFile::read(&format!("{text}{SHORT}")).unwrap();
        let expected = Settings {
            fx: 1e-5,
            x_min: Face::Velocity(0.1, 0.0),
            x_max: Face::Pressure(1.0),
            y_min: Face::NoSlip,
            y_max: Face::MovingWall(-0.1, 0.0),
            floor: 1e-20,
            ..Settings::new(3, 2, 0.1)
        };
        assert_eq!(study.settings, expected);
        assert_eq!(study.start, Start::Shear(1.0, 0.1, 0.01));
        assert_eq!((study.tolerance, study.check_every), (0.125, 7));
    }

    #[test]
    fn a_rate_may_be_given_as_it_is() {
        assert_eq!(StudyFile::read(&format!("{SHORT}collision trt 1.25")).unwrap().settings.collision, Collision::Trt(1.25));
        assert_eq!(StudyFile::read(&format!("{SHORT}collision bgk")).unwrap().settings.collision, Collision::Bgk);
    }

    #[test]
    fn a_floor_may_be_any_number_once() {
        let floor = |text: &str| StudyFile::read(&format!("{SHORT}{text}")).unwrap().settings.floor;
        assert_eq!(floor(""), 1e-12);
        assert_eq!(floor("floor 1e-20"), 1e-20);
        assert_eq!(floor("floor 5e-324 # the least"), f64::from_bits(1));
        assert_eq!(floor("floor 1/8"), 0.125);
        // Whether it can be one is the library's to say.
        assert_eq!(floor("floor -1"), -1.0);
        assert!(floor("floor nan").is_nan());
        for line in ["floor", "floor low", "floor 1 2"] {
            assert_eq!(wrong(&format!("{SHORT}{line}")), format!("line 4: expected floor NUMBER, found `{line}`"));
        }
        let twice = wrong(&format!("{SHORT}floor 1e-20\nfloor 1e-20"));
        assert_eq!(twice, "line 5: expected no second line `floor`, found `floor 1e-20`");
    }

    #[test]
    fn a_wrong_line_gets_its_number_and_what_was_expected() {
        assert_eq!(wrong(&format!("{SHORT}\nsides 1 1")), "line 5: expected no second line `sides`, found `sides 1 1`");
        assert_eq!(wrong("# a comment\nsides 3"), "line 2: expected sides NX NY, two whole numbers, found `sides 3`");
        assert_eq!(wrong("y-max moving-wall 0.1"), format!("line 1: expected y-max {FACE}, found `y-max moving-wall 0.1`"));
        let names = "sides, viscosity, force, collision, floor, x-min, x-max, y-min, y-max, obstacle, start, steps or steady";
        assert_eq!(wrong("faces periodic"), format!("line 1: expected {names}, found `faces periodic`"));
        assert_eq!(wrong("sides 3 2\nsteps 5"), "line 3: expected a line `viscosity NUMBER`, found the end");
        assert!(wrong("\u{feff}sides 3 2").ends_with(r"found `\u{feff}sides 3 2`"));
        assert!(wrong(&"steps".repeat(1000)).ends_with(&format!("`{}`..", "steps".repeat(12))));
    }

    #[test]
    fn a_wave_rises_falls_and_comes_back() {
        let eight: Vec<f64> = (0..8).map(|at| wave(at, 8)).collect();
        assert_eq!(eight, [0.4375, 0.9375, 0.9375, 0.4375, -0.4375, -0.9375, -0.9375, -0.4375]);
    }
}
