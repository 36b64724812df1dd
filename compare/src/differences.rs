//! The recorded differences: each row of docs/DIFFERENCES.md that has an input, asked of the Rust and of the library.

use brothwagon::ffi::{self, Face, Obstacle, Settings};
use source::{FLOOR, Solver, solver};
use std::fmt::Debug;
use std::panic::{self, AssertUnwindSafe, catch_unwind};
use std::process::ExitCode;

/// A row: what is asked, what both must answer, and what both do answer.
struct Row {
    asked: &'static str,
    rust: (&'static str, String),
    port: (&'static str, String),
}

const NAN: f64 = f64::NAN;
const MINUS_INFINITY: f64 = f64::NEG_INFINITY;

/// Prints what both answer; fails where either answers anything but what is recorded.
pub fn show() -> ExitCode {
    // A panic of the Rust is an answer here.
    panic::set_hook(Box::new(|_| ()));
    let rows: Vec<Row> = [sums(), steady_runs(), places(), obstacles(), floors(), refusals()].into_iter().flatten().collect();
    let mut wrong = 0;
    for row in &rows {
        println!("{}\n  the Rust: {}\n  the port: {}", row.asked, row.rust.1, row.port.1);
        wrong += usize::from(row.rust.0 != row.rust.1 || row.port.0 != row.port.1);
    }
    println!("{} recorded differences, {wrong} not as recorded", rows.len());
    if wrong == 0 { ExitCode::SUCCESS } else { ExitCode::FAILURE }
}

fn row(asked: &'static str, rust: (&'static str, String), port: (&'static str, String)) -> Row {
    Row { asked, rust, port }
}

/// What the Rust answers, or that it panics.
fn answers<T: Debug>(ask: impl FnOnce() -> T) -> String {
    catch_unwind(AssertUnwindSafe(ask)).map_or_else(|_| "panics".to_string(), |answer| format!("{answer:?}"))
}

fn goes_on(act: impl FnOnce()) -> String {
    catch_unwind(AssertUnwindSafe(act)).map_or("panics", |()| "goes on").to_string()
}

fn number(number: u32) -> String {
    format!("number {number}")
}

/// Settings of nx by ny, periodic, BGK.
fn settings(nx: u64, ny: u64) -> Settings {
    Settings { nx, ny, nu: 0.1, ..Settings::default() }
}

/// The Rust, which has no floor but its own.
fn on(settings: &Settings, f: &[f64]) -> Box<dyn Solver> {
    solver(&Settings { floor: FLOOR, ..*settings }, None, f.to_vec(), vec![0.0; f.len()])
}

fn only(population: f64) -> [f64; 9] {
    [population, 0.0, 0.0, 0.0, 0.0, 0.0, 0.0, 0.0, 0.0]
}

fn sums() -> Vec<Row> {
    let one = settings(1, 1);
    let f = [-0.0; 9];
    let wall = Settings { y_max: Face { kind: 2, a: 0.1, b: 0.0 }, ..one };
    let mut rust = solver(&wall, None, vec![0.0; 9], f.to_vec());
    rust.stream_with_faces();
    let mut port = [0.0; 9];
    ffi::stream_with_faces(&wall, &f, &mut port);
    let three = |f: &[f64]| format!("{:?} {:?} {:?}", f[4], f[7], f[8]);
    vec![
        row(
            "density, 1 by 1, nine populations -0.0",
            ("-0.0", answers(|| on(&one, &f).density(0, 0))),
            ("0.0", format!("{:?}", ffi::density(&one, &f, 0, 0).1)),
        ),
        row(
            "total_mass, the same",
            ("-0.0", answers(|| on(&one, &f).total_mass())),
            ("0.0", format!("{:?}", ffi::total_mass(&one, &f).1)),
        ),
        row(
            "streaming, 1 by 1, nine post-collision entries -0.0, y max MovingWall(0.1, 0): entries 4, 7, 8",
            ("-0.0 0.0 -0.0", three(rust.f())),
            ("0.0 -0.0 0.0", three(&port)),
        ),
    ]
}

/// A steady run that the Rust calls settled: its steps and residual, with what it leaves of the last cell; and the port's number.
fn ruined(asked: &'static str, s: Settings, f: &[f64], rust: &'static str, port: &'static str) -> Row {
    let left = answers(|| {
        let mut solver = on(&s, f);
        let (steps, residual) = solver.run_to_steady_state(1e-9, 5, 1);
        let last = s.nx as usize - 1;
        (steps, residual, solver.density(last, 0), solver.velocity(last, 0))
    });
    let (mut f, mut post, mut u) = (f.to_vec(), vec![0.0; f.len()], vec![0.0; f.len() / 9 * 2]);
    let (refused, [_, steps, _]) = ffi::run_to_steady_state(&s, 1e-9, 5, 1, &mut f, &mut post, &mut u);
    row(asked, (rust, left), (port, format!("number {refused}, steps {steps}")))
}

fn steady_runs() -> Vec<Row> {
    let (one, two) = (settings(1, 1), Settings { nu: 100.0, ..settings(2, 1) });
    let (huge, at_once, later) = (2f64.powi(1023), "number 9, steps 0", "number 9, steps 1");
    let all_nan = "(1, 0.0, NaN, [NaN, NaN])";
    // After a step directions 1 and 3 of the first cell are at the second, which is at rest.
    let meeting = |sign: f64| {
        let mut f = [0.0; 18];
        (f[2], f[6], f[1]) = (sign * huge / 2.0, sign * huge / 2.0, sign * huge * 1.5);
        f
    };
    vec![
        ruined("steady run, 1 by 1, population 0 NaN", one, &only(NAN), all_nan, at_once),
        ruined("steady run, 1 by 1, population 0 minus infinity", one, &only(MINUS_INFINITY), all_nan, at_once),
        ruined(
            "steady run, 1 by 1, populations 1 and 3 are 2^1023: density infinity, velocity (0, 0)",
            one,
            &[0.0, huge, 0.0, huge, 0.0, 0.0, 0.0, 0.0, 0.0],
            "(1, 0.0, inf, [NaN, NaN])",
            at_once,
        ),
        ruined(
            "steady run, 2 by 1, viscosity 100, -2^1022 in directions 1 and 3 of the first cell, -1.5*2^1023 in 0 of the second",
            two,
            &meeting(-1.0),
            "(1, 0.0, -inf, [0.0, 0.0])",
            later,
        ),
        ruined("the same with 2^1022 and 1.5*2^1023", two, &meeting(1.0), "(1, 0.0, inf, [0.0, 0.0])", later),
    ]
}

fn places() -> Vec<Row> {
    let (one, two) = (settings(1, 1), settings(2, 2));
    let f: Vec<f64> = (0..36).map(|at| if at % 4 == 2 { 1.0 } else { 0.0 }).collect();
    vec![
        row(
            "density(2, 0), 2 by 2, where the cell (0, 1) alone has nine times 1",
            ("9.0", answers(|| on(&two, &f).density(2, 0))),
            ("number 6", number(ffi::density(&two, &f, 2, 0).0)),
        ),
        row(
            "density(1, 0), 1 by 1",
            ("panics", answers(|| on(&one, &[0.0; 9]).density(1, 0))),
            ("number 6", number(ffi::density(&one, &[0.0; 9], 1, 0).0)),
        ),
    ]
}

/// Obstacles in a grid whose populations are their own indices: what the Rust leaves of populations 1 and 3 of the last cell,
/// and the port's number.
fn thrown_back(asked: &'static str, (nx, ny): (u64, u64), list: &[Obstacle], rust: &'static str, port: &'static str) -> Row {
    let (s, cells) = (settings(nx, ny), (nx * ny) as usize);
    let mut f: Vec<f64> = (0..9 * cells).map(|at| at as f64).collect();
    let left = answers(|| {
        let mut solver = on(&s, &f);
        solver.set_no_slip_bc(list);
        (solver.f()[2 * cells - 1], solver.f()[4 * cells - 1])
    });
    row(asked, (rust, left), (port, number(ffi::set_no_slip_bc(&s, list, &mut f))))
}

fn obstacles() -> Vec<Row> {
    let at = |x, y| Obstacle { x, y };
    vec![
        thrown_back("an obstacle at (3, 0), 2 by 2", (2, 2), &[at(3, 0)], "(15.0, 7.0)", "number 6"),
        thrown_back("an obstacle at (1, 0), 1 by 1", (1, 1), &[at(1, 0)], "panics", "number 6"),
        thrown_back("an obstacle at (0, 0) twice, 1 by 1", (1, 1), &[at(0, 0); 2], "(1.0, 3.0)", "number 16"),
        thrown_back("obstacles at (1, 0) and (0, 0), 2 by 1", (2, 1), &[at(1, 0), at(0, 0)], "(7.0, 3.0)", "number 16"),
    ]
}

fn floors() -> Vec<Row> {
    let thin = Settings { floor: 0.5, ..settings(1, 1) };
    let f = [0.0, 0.25, 0.0, 0.0, 0.0, 0.0, 0.0, 0.0, 0.0];
    vec![row(
        "velocity, 1 by 1, population 1 alone is 0.25, floor 0.5",
        ("[1.0, 0.0]", answers(|| on(&thin, &f).velocity(0, 0))),
        ("[0.0, 0.0]", format!("{:?}", ffi::velocity(&thin, &f, 0, 0).1)),
    )]
}

/// A call of the Rust that goes on or panics, and the port's number.
fn refused(asked: &'static str, s: Settings, rust: &'static str, steps: u64, port: &'static str) -> Row {
    let entries = 9 * (s.nx * s.ny) as usize;
    let (mut f, mut post) = (vec![0.1; entries], vec![0.1; entries]);
    let by_rust = goes_on(|| on(&s, &vec![0.1; entries]).run(steps as usize));
    row(asked, (rust, by_rust), (port, number(ffi::run(&s, steps, &mut f, &mut post))))
}

fn refusals() -> Vec<Row> {
    let (one, wall) = (settings(1, 1), Face { kind: 1, ..Face::default() });
    let closed = Settings { x_min: wall, x_max: wall, y_min: wall, y_max: wall, ..settings(0, 1) };
    let empty = Face { kind: 5, a: 0.0, b: 0.0 };
    let (mut f, mut post, mut u) = ([0.1; 9], [0.1; 9], [0.0; 2]);
    let (by_nan, _) = ffi::run_to_steady_state(&one, NAN, 1, 1, &mut f, &mut post, &mut u);
    vec![
        refused("a step, 0 by 1, closed box", closed, "panics", 1, "number 1"),
        refused("a step, 4097 by 1", settings(4097, 1), "goes on", 1, "number 1"),
        refused("a step, viscosity -1", Settings { nu: -1.0, ..one }, "goes on", 1, "number 3"),
        refused("a step, floor 0", Settings { floor: 0.0, ..one }, "goes on", 1, "number 3"),
        refused("a step, force NaN", Settings { fx: NAN, ..one }, "goes on", 1, "number 4"),
        refused("a step, x min Pressure(0)", Settings { x_min: empty, ..one }, "goes on", 1, "number 5"),
        refused("1,000,001 steps, 1 by 1", one, "goes on", 1_000_001, "number 10"),
        row(
            "steady run, tolerance NaN, 1 step",
            ("(1, 0.0)", answers(|| on(&one, &[0.1; 9]).run_to_steady_state(NAN, 1, 1))),
            ("number 10", number(by_nan)),
        ),
    ]
}
