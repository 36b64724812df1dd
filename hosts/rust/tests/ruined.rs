//! Ruined states at the command: a cell has a density or a velocity component that is not finite.

mod asked;
mod document;

use asked::{failed, out, path, ruined, study, value};
use std::fs::{self, File};
use std::io;
use std::process::{Command, Stdio};

/// Makes a checkpoint with that step number, of populations that are 0.0 but for these places in the buffer.
fn checkpoint(name: &str, (nx, ny): (u16, u16), step: u32, held: &[(usize, f64)]) -> String {
    let made = format!("MADE/{name}.checkpoint");
    let mut f = vec![0.0; 9 * usize::from(nx) * usize::from(ny)];
    for &(at, population) in held {
        f[at] = population;
    }
    fs::write(path(&made), document::checkpoint(nx, ny, step, &f)).unwrap();
    made
}

/// Directions 1 and 3 of the first of two cells, which are at the second after a step, and direction 0 of that one.
fn meeting(name: &str, sign: f64) -> String {
    let huge = sign * 2f64.powi(1023);
    checkpoint(name, (2, 1), 7, &[(2, huge / 2.0), (6, huge / 2.0), (1, 1.5 * huge)])
}

const TWO: &str = "sides 2 1\nviscosity 100\nsteps 1\ncollision bgk\n";

const WHY: &str = "is ruined: a cell has a density or a velocity component that is not finite; the first such cell is";

#[test]
fn a_run_looks_at_the_state_that_it_leaves() {
    let two = study("looked-at", TWO);
    for (sign, density) in [(-1.0, "-inf"), (1.0, "inf")] {
        let from = meeting("looked-at", sign);
        // All is finite before the step.
        out(&format!("run {two} --from {from} --steps 0"));
        let (said, wrong) = ruined(&format!("run {two} --from {from}"));
        assert_eq!((value(&said, "to step"), value(&said, "mass")), ("8", density));
        let cell = format!("x 1, y 0, with density {density} and velocity (0.0, 0.0)");
        assert!(wrong.ends_with(&format!("looked-at.study: the state at step 8 {WHY} {cell}\n")), "{wrong}");
    }
}

#[test]
fn the_first_cell_is_the_first_row_by_row() {
    let grid = study("rows", "sides 3 2\nviscosity 0.1\nsteps 0\n");
    // Direction 0 of (2, 0) and of (0, 1).
    let from = checkpoint("rows", (3, 2), 0, &[(3, f64::NAN), (2, f64::INFINITY)]);
    let (_, wrong) = ruined(&format!("run {grid} --from {from}"));
    assert!(wrong.contains(&format!("{WHY} x 2, y 0, with density inf and velocity (NaN, NaN)")), "{wrong}");
}

#[test]
fn a_velocity_alone_is_enough() {
    let one = study("velocity", "sides 1 1\nviscosity 0.1\nsteps 0\n");
    for (held, cell) in [
        ([(1, 1e300), (3, -1e300), (8, 1e-11)], "density 1e-11 and velocity (inf, "),
        ([(2, 1e300), (4, -1e300), (6, 1e-11)], "density 1e-11 and velocity (-1.0, inf)"),
    ] {
        let (_, wrong) = ruined(&format!("run {one} --from {}", checkpoint("velocity", (1, 1), 0, &held)));
        assert!(wrong.contains(cell), "{wrong}");
    }
}

#[test]
fn a_ruined_state_is_saved_and_shown_and_said_to_be_ruined() {
    let (two, from) = (study("saved", TWO), meeting("saved", -1.0));
    let (said, wrong) = ruined(&format!("run {two} --from {from} --save MADE/saved.end"));
    assert!(value(&said, "saved as").ends_with("saved.end"), "{said}");
    let (shown, again) = ruined("show MADE/saved.end");
    assert_eq!((value(&shown, "step"), value(&shown, "fingerprint")), ("8", value(&said, "fingerprint")));
    let cell = |said: &str| said.split_once(WHY).unwrap().1.to_string();
    assert_eq!(cell(&again), cell(&wrong));
    assert!(again.contains("saved.end: the state at step 8 "), "{again}");
    assert_eq!(value(&out(&format!("show {from}")), "step"), "7");
}

#[test]
fn a_steady_run_ends_at_a_ruined_check_and_saves_nothing() {
    let _ = fs::remove_file(path("MADE/check.end"));
    let (two, from) = (study("check", &format!("{TWO}steady 1e-9 1\n")), meeting("check", -1.0));
    let (status, said) = failed(&format!("steady {two} --from {from} --save MADE/check.end"));
    assert_eq!(status, Some(4));
    let why = "refused with number 9: a snapshot has a density or a velocity component that is not finite, after 1 steps";
    let cell = "x 1, y 0, with density -inf and velocity (0.0, 0.0)";
    assert!(said.ends_with(&format!("check.study: {why}; the first such cell is {cell}\n")), "{said}");
    assert!(!fs::exists(path("MADE/check.end")).unwrap());
}

#[test]
fn a_steady_run_that_runs_out_between_checks_is_looked_at_too() {
    let (two, from) = (study("between", &format!("{TWO}steady 1e-9 2\n")), meeting("between", 1.0));
    let (said, wrong) = ruined(&format!("steady {two} --from {from}"));
    assert_eq!((value(&said, "ran out, steps"), value(&said, "residual")), ("1", "inf"));
    assert!(wrong.contains(&format!("the state at step 8 {WHY} x 1, y 0, with density inf")), "{wrong}");
}

#[test]
fn a_flow_that_blows_up_is_ruined() {
    let flow = study("blown-up", "sides 16 16\nviscosity 0\nsteps 2000\ncollision bgk\nstart shear 1 0.5 0.4\n");
    let (said, wrong) = ruined(&format!("run {flow}"));
    assert_eq!(value(&said, "mass"), "NaN");
    assert!(wrong.contains(&format!("blown-up.study: the state at step 2000 {WHY} x 0, y 0, with density NaN")), "{wrong}");
}

/// The end of a run that leaves a ruined state, with its answer going there.
fn answering(name: &str, to: impl Into<Stdio>) -> (Option<i32>, String) {
    let (two, from) = (path(&study(name, TWO)), path(&meeting(name, -1.0)));
    let words = ["run", &two, "--from", &from];
    let end = Command::new(env!("CARGO_BIN_EXE_brothwagon")).args(words).stdout(to).output().unwrap();
    (end.status.code(), String::from_utf8(end.stderr).unwrap())
}

#[test]
fn a_ruined_state_is_told_whatever_becomes_of_the_answer() {
    let (reader, writer) = io::pipe().unwrap();
    drop(reader);
    let (status, unread) = answering("unread", writer);
    assert_eq!(status, Some(4));
    assert!(unread.contains(WHY) && !unread.contains("cannot be written"), "{unread}");
    let (status, unwritten) = answering("unwritten", File::create("/dev/full").unwrap());
    assert_eq!(status, Some(4));
    assert!(unwritten.contains(WHY) && unwritten.contains("; the answer cannot be written: "), "{unwritten}");
}
