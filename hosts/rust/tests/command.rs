//! The command, from outside: what it prints and how it ends.

mod asked;

use asked::{failed, out, ruined, study, value};
use std::io;
use std::process::Command;

// `compare/run --studies` prints these fingerprints, from the solver's source.
#[test]
fn each_study_ends_in_the_state_that_the_solvers_source_gives() {
    let fingerprints = [
        ("cavity", "924747a01440ed05"),
        ("channel", "abacbad02f25b937"),
        ("shear", "d6f16322b12c8a1c"),
        ("post", "dc9bf8793b570956"),
        ("thin", "f9e4ef26b9041785"),
    ];
    for (study, fingerprint) in fingerprints {
        let said = out(&format!("run STUDIES/{study}.study --steps 20"));
        assert_eq!(value(&said, "fingerprint"), fingerprint, "{study}");
    }
}

#[test]
fn a_run_of_no_steps_leaves_the_start_ruined_or_not_or_is_refused() {
    let start = out("run STUDIES/shear.study --steps 0");
    assert_eq!((value(&start, "steps"), value(&start, "mass")), ("0", "65536.0"));
    let (start, wrong) =
        ruined(&format!("run {}", study("hollow", "sides 2 2\nviscosity 1\nsteps 0\nstart uniform -inf 0 0\n")));
    assert_eq!((value(&start, "steps"), value(&start, "mass")), ("0", "-inf"));
    assert!(wrong.contains("hollow.study: the state at step 0 is ruined: "), "{wrong}");
    let lines = ["viscosity -1", "viscosity 1\nforce inf 0", "viscosity 1\nx-min velocity 1 0", "viscosity 1\ncollision trt 3"];
    for (line, number) in lines.into_iter().zip([3, 4, 5, 3]) {
        let made = study("no-steps", &format!("sides 2 2\nsteps 0\n{line}\n"));
        let (status, said) = failed(&format!("run {made}"));
        assert_eq!(status, Some(1), "{line}");
        assert!(said.contains(&format!("no-steps.study: refused with number {number}: ")), "{line}: {said}");
    }
}

#[test]
fn a_steady_run_settles_runs_out_or_is_refused() {
    let tube = "sides 3 8\nviscosity 0.1\nforce 1e-5 0\ny-min no-slip\ny-max no-slip\n";
    let settled = study("settled", &format!("{tube}steps 100000\nsteady 1e-6 10\n"));
    let said = out(&format!("steady {settled}"));
    let steps: u64 = value(&said, "settled, steps").parse().unwrap();
    assert!(0 < steps && steps < 100_000 && steps.is_multiple_of(10), "{said}");
    assert!(value(&said, "residual").parse::<f64>().unwrap() < 1e-6, "{said}");
    // As many steps of a plain run end in the same state.
    let run = out(&format!("run {settled} --steps {steps}"));
    assert_eq!(value(&said, "fingerprint"), value(&run, "fingerprint"));

    let said = out(&format!("steady {}", study("ran-out", &format!("{tube}steps 7\nsteady 1e-6 10\n"))));
    assert_eq!((value(&said, "ran out, steps"), value(&said, "residual")), ("7", "inf"));

    let many = study("many", &format!("{tube}steps 1000001\n"));
    let (status, said) = failed(&format!("steady {many}"));
    assert_eq!(status, Some(1));
    assert!(said.contains("many.study: refused with number 10: "), "{said}");
}

#[test]
fn the_lossless_question_is_answered_or_refused() {
    assert_eq!(out("lossless STUDIES/shear.study"), "lossless\n");
    let lossy = "sides 3 2\nviscosity 0.1\nsteps 0\nx-min symmetry\nx-max symmetry\ny-min no-slip\ny-max no-slip\n";
    assert_eq!(out(&format!("lossless {}", study("lossy", lossy))), "lossy 2 0 5\n");
    let (status, said) = failed("lossless STUDIES/cavity.study");
    assert_eq!(status, Some(1));
    assert!(said.contains("cavity.study: refused with number 7: the lossless question"), "{said}");
}

#[test]
fn a_wrong_file_or_command_is_told_apart_from_a_refusal() {
    let (status, said) = failed("run STUDIES/../hosts/rust/Cargo.toml");
    assert_eq!(status, Some(2));
    assert!(said.contains("Cargo.toml: line 1: expected sides, viscosity,"), "{said}");
    assert_eq!(failed("walk").0, Some(2));
    assert_eq!(failed("run").0, Some(2));
    assert_eq!(failed("run STUDIES/cavity.study --steps many").0, Some(2));
    assert_eq!(failed("run STUDIES/cavity.study --every 5").0, Some(2));
    assert_eq!(failed("show").0, Some(2));
}

#[test]
fn a_reader_that_has_seen_enough_ends_it_quietly() {
    let (reader, writer) = io::pipe().unwrap();
    drop(reader);
    let end = Command::new(env!("CARGO_BIN_EXE_brothwagon")).arg("--help").stdout(writer).output().unwrap();
    assert!(end.status.success());
    assert_eq!(String::from_utf8_lossy(&end.stderr), "");
}

#[test]
fn help_says_what_the_fingerprint_and_the_statuses_are() {
    let help = out("--help");
    assert!(help.contains("FNV-1a") && help.contains("1 refused, or `check`") && help.contains("4 the state is ruined"));
    assert_eq!(out("run --help"), help);
}

#[test]
fn help_has_every_line_of_a_study_file_and_every_option() {
    let help = out("--help");
    let (_, said) = failed(&format!("run {}", study("any-line", "any\n")));
    let (names, _) = said.split_once("expected ").unwrap().1.split_once(", found ").unwrap();
    // Of the faces, the first has a line, and the others stand in it.
    for name in names.replace(" or ", ", ").split(", ").filter(|name| !["x-max", "y-min", "y-max"].contains(name)) {
        assert!(help.lines().any(|line| line.starts_with(&format!("  {name} "))), "{name}");
    }
    // What is left out, as docs and settings have it.
    assert_eq!(help.matches("1e-12 if left out").count(), 1);
    for option in ["--steps N", "--from FILE", "--save FILE", "--every N --into FOLDER", "--floor NUMBER"] {
        assert!(help.lines().any(|line| line.starts_with(&format!("    {option} "))), "{option}");
    }
}
