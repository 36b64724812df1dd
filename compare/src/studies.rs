//! The studies of the repository, from their starts, by the Rust and by the library.

use brothwagon::{Face, Obstacle, Refusal, StudyFile, ffi, fingerprint};
use source::Solver;
use std::process::ExitCode;

/// The steps of each study, unless it is run whole.
const STEPS: u64 = 20;

/// The steps between two looks at a study.
const PART: u64 = 100;

/// A physical study stays below this speed: half of the speed of sound is 0.29.
const FASTEST: f64 = 0.3;

/// The part of its mass by which a closed study may drift, through rounding.
const DRIFT: f64 = 1e-9;

const STUDIES: [(&str, &str); 5] = [
    ("cavity", include_str!("../../studies/cavity.study")),
    ("channel", include_str!("../../studies/channel.study")),
    ("shear", include_str!("../../studies/shear.study")),
    ("post", include_str!("../../studies/post.study")),
    ("thin", include_str!("../../studies/thin.study")),
];

/// Runs each study, all its steps if `whole`, and prints the fingerprint that the Rust gives it. Fails where the library gives
/// another, or where a study is not physical.
pub fn compare(whole: bool) -> ExitCode {
    for (name, text) in STUDIES {
        let file = StudyFile::read(text).expect("a study of the repository can be read");
        match run(&file, if whole { file.steps } else { STEPS }) {
            Ok(end) => println!("{name}: {end}"),
            Err(why) => {
                println!("{name}: {why}");
                return ExitCode::FAILURE;
            }
        }
    }
    ExitCode::SUCCESS
}

/// What the Rust and the library end in, alike at each look; else where they part, or what is not physical.
fn run(file: &StudyFile, steps: u64) -> Result<String, String> {
    let refused = |refusal: Refusal| refusal.to_string();
    let mut rust = by_rust(file);
    let mut port = file.started().map_err(refused)?;
    let started = port.total_mass().map_err(refused)?;
    let (mut done, mut highest) = (0, 0.0);
    loop {
        let (of_rust, of_port) = (fingerprint(rust.f()), fingerprint(port.f()));
        if of_rust != of_port {
            return Err(format!("after {done} steps the Rust has the fingerprint {of_rust:016x}, the library {of_port:016x}"));
        }
        let (mass, speed) = (port.total_mass().map_err(refused)?, fastest(port.velocity_field().map_err(refused)?));
        if !mass.is_finite() || speed >= FASTEST || closed(file) && (mass - started).abs() > DRIFT * started {
            return Err(format!(
                "not physical after {done} steps: mass {mass:?}, at the start {started:?}, highest speed {speed:.4}"
            ));
        }
        highest = speed.max(highest);
        if done == steps {
            let end = format!("after {steps} steps the Rust has the fingerprint {of_rust:016x}");
            return Ok(format!("{end}; mass {mass:?}, at the start {started:?}, highest speed {highest:.4}"));
        }
        let part = PART.min(steps - done);
        run_past(&mut *rust, &file.obstacles, part);
        port.run_past(&file.obstacles, part).map_err(refused)?;
        done += part;
    }
}

/// The Rust at the study's start.
fn by_rust(file: &StudyFile) -> Box<dyn Solver> {
    let (nx, ny, start) = (file.settings.nx, file.settings.ny, file.start);
    let table: Vec<f64> = (0..nx * ny).flat_map(|at| start.cell(nx, ny, at % nx, at / nx)).collect();
    let zeros = vec![0.0; 9 * nx * ny];
    let mut solver = source::solver(&ffi::Settings::from(&file.settings), file.magic, zeros.clone(), zeros);
    solver.initialize(&table);
    solver
}

/// The Rust's steps, with the obstacles' cells after each.
fn run_past(rust: &mut dyn Solver, obstacles: &[Obstacle], steps: u64) {
    for _ in 0..steps {
        rust.run(1);
        rust.set_no_slip_bc(obstacles);
    }
}

/// The highest speed of a velocity field; infinite where a component is not finite.
fn fastest(u: &[f64]) -> f64 {
    let speed = |cell: &[f64]| if cell.iter().all(|part| part.is_finite()) { cell[0].hypot(cell[1]) } else { f64::INFINITY };
    u.chunks(2).map(speed).fold(0.0, f64::max)
}

/// Whether no face lets anything in or out.
fn closed(file: &StudyFile) -> bool {
    let settings = &file.settings;
    let faces = [settings.x_min, settings.x_max, settings.y_min, settings.y_max];
    !faces.iter().any(|face| matches!(face, Face::Velocity(..) | Face::Pressure(_)))
}
