//! Obstacles: what their call does to a study, and studies with obstacles at the command.

mod asked;

use asked::{failed, out, path, ruined, study, value};
use brothwagon::{Face, Obstacle, Refusal, Settings, Study, StudyFile, ffi, fingerprint};
use std::fs;

/// Opposite directions, as the rules have them.
const OPPOSITE: [usize; 9] = [0, 3, 4, 1, 2, 7, 8, 5, 6];

/// A 4 by 3 grid whose populations all differ; every fifth is a NaN with a payload.
fn numbered() -> Study {
    let mut study = Study::new(Settings::new(4, 3, 0.1)).unwrap();
    for (at, entry) in (0..).zip(study.f_mut()) {
        *entry = f64::from_bits(if at % 5 == 0 { 0xfff0_dead_beef_0001 + at } else { 0x3f01_0203_0405_0607 + (at << 24) });
    }
    study
}

fn bits(study: &Study) -> Vec<u64> {
    study.f().iter().map(|entry| entry.to_bits()).collect()
}

fn list(cells: &[(usize, usize)]) -> Vec<Obstacle> {
    cells.iter().map(|&(x, y)| Obstacle { x, y }).collect()
}

/// Turns the named cells by the rule: entry (x, y, i) becomes the one that had the opposite of i.
fn turn(study: &mut Study, named: impl Fn(usize, usize) -> bool) {
    let (nx, before) = (study.settings().nx, study.f().to_vec());
    let cells = before.len() / 9;
    for (at, entry) in study.f_mut().iter_mut().enumerate() {
        let (cell, i) = (at % cells, at / cells);
        if named(cell % nx, cell / nx) {
            *entry = before[cell + OPPOSITE[i] * cells];
        }
    }
}

#[test]
fn named_cells_are_turned_and_all_others_keep_their_bits() {
    let all: Vec<(usize, usize)> = (0..12).map(|cell| (cell % 4, cell / 4)).collect();
    for cells in [&[][..], &[(0, 0)], &[(3, 2)], &[(1, 0), (2, 0), (0, 1), (3, 2)], &all] {
        let (mut study, mut by_rule) = (numbered(), numbered());
        study.set_no_slip_bc(&list(cells)).unwrap();
        turn(&mut by_rule, |x, y| cells.contains(&(x, y)));
        assert_eq!(bits(&study), bits(&by_rule), "{cells:?}");
        study.set_no_slip_bc(&list(cells)).unwrap();
        assert_eq!(bits(&study), bits(&numbered()), "{cells:?}, twice");
    }
}

#[test]
fn a_list_that_is_refused_writes_nothing() {
    let cases = [
        (&[(4, 0)][..], Refusal::Place),
        (&[(0, 3)], Refusal::Place),
        (&[(0, 0), (usize::MAX, usize::MAX)], Refusal::Place),
        (&[(1, 1), (1, 1)], Refusal::Order),
        (&[(0, 1), (3, 0)], Refusal::Order),
        (&[(0, 0), (1, 0), (2, 0), (1, 2), (0, 2)], Refusal::Order),
        // A place outside is told first, wherever it stands in the list.
        (&[(1, 1), (1, 1), (4, 2)], Refusal::Place),
        (&[(2, 1), (1, 1), (0, 3)], Refusal::Place),
    ];
    for (cells, refusal) in cases {
        let mut study = numbered();
        let before = bits(&study);
        assert_eq!(study.set_no_slip_bc(&list(cells)), Err(refusal), "{cells:?}");
        assert_eq!(study.ask_past(&list(cells)), Err(refusal), "{cells:?}");
        assert_eq!(bits(&study), before, "{cells:?}");
        assert!(study.post().iter().all(|&entry| entry == 0.0), "{cells:?}: a step was taken");
        assert_eq!(study.run_past(&list(cells), 3), Err(refusal), "{cells:?}");
    }
}

#[test]
fn sides_and_lengths_are_refused_before_the_list() {
    let wrong = list(&[(9, 9), (0, 0), (0, 0)]);
    let settings = ffi::Settings { nx: 4, ny: 3, ..ffi::Settings::default() };
    let mut f = [2.5; 109];
    for (settings, entries, number) in [
        (ffi::Settings { nx: 0, ..settings }, 108, 1),
        (ffi::Settings { ny: 4097, ..settings }, 0, 1),
        (settings, 107, 2),
        (settings, 109, 2),
        (settings, 108, 6),
    ] {
        assert_eq!(ffi::set_no_slip_bc(&settings, &wrong, &mut f[..entries]), number);
    }
    assert_eq!(f, [2.5; 109]);
}

/// A channel past a block and a cell. At rest, to be turned would change nothing.
const CHANNEL: &str = "sides 12 7\nviscosity 0.05\nforce 1e-4 1e-5\ny-min no-slip\ny-max moving-wall 0.05 0\nsteps 35\n\
                       start shear 1 0.05 0.02\nobstacle 4 3 to 3 2\nobstacle 8 4 # beyond\nobstacle 5 2\n";

const NAMED: [(usize, usize); 6] = [(3, 2), (4, 2), (5, 2), (3, 3), (4, 3), (8, 4)];

/// A study after so many steps, each with the named cells turned by the rule.
fn by_rule(text: &str, steps: u64, named: impl Fn(usize, usize) -> bool) -> Study {
    let mut study = StudyFile::read(text).unwrap().started().unwrap();
    for _ in 0..steps {
        study.step().unwrap();
        turn(&mut study, &named);
    }
    study
}

/// The channel after so many steps.
fn channel(steps: u64) -> Study {
    by_rule(CHANNEL, steps, |x, y| NAMED.contains(&(x, y)))
}

#[test]
fn a_run_past_obstacles_is_its_steps_with_the_call_after_each() {
    let start = StudyFile::read(CHANNEL).unwrap().started().unwrap();
    for steps in [0, 1, 2, 35] {
        let (mut study, expected) = (start.clone(), channel(steps));
        study.run_past(&list(&NAMED), steps).unwrap();
        assert_eq!(bits(&study), bits(&expected), "{steps} steps");
        assert_eq!(study.post(), expected.post(), "{steps} steps");
    }
    let (mut none, mut plain) = (start.clone(), start);
    none.run_past(&[], 5).unwrap();
    plain.run(5).unwrap();
    assert_eq!(bits(&none), bits(&plain));
}

#[test]
fn a_question_about_obstacles_is_refused_with_the_settings_first_and_changes_nothing() {
    let mut study = Study::new(Settings { x_min: Face::Velocity(1.0, 0.0), ..Settings::new(4, 3, 0.1) }).unwrap();
    assert_eq!(study.ask_past(&list(&[(4, 0)])), Err(Refusal::Face));
    study.change(Settings::new(4, 3, 0.1)).unwrap();
    assert_eq!(study.ask_past(&list(&[(4, 0)])), Err(Refusal::Place));
    let mut study = numbered();
    let before = bits(&study);
    assert_eq!(study.ask_past(&list(&[(3, 0)])), Ok(()));
    assert_eq!(bits(&study), before);
}

fn print(study: &Study) -> String {
    format!("{:016x}", fingerprint(study.f()))
}

#[test]
fn the_command_runs_past_the_obstacles_of_a_study() {
    let past = study("past", CHANNEL);
    for steps in [0, 1, 35] {
        let said = out(&format!("run {past} --steps {steps}"));
        assert_eq!(value(&said, "fingerprint"), print(&channel(steps)), "{steps} steps");
        assert_eq!(value(&said, "obstacle cells"), "6");
    }
    let plain: String = CHANNEL.lines().filter(|line| !line.starts_with("obstacle")).map(|line| format!("{line}\n")).collect();
    let said = out(&format!("run {}", study("past-none", &plain)));
    assert!(!said.contains("obstacle") && value(&said, "fingerprint") != print(&channel(35)), "{said}");
}

#[test]
fn the_post_is_a_block_of_twenty_by_twenty() {
    let text = fs::read_to_string(path("STUDIES/post.study")).unwrap();
    let post = by_rule(&text, 20, |x, y| (50..70).contains(&x) && (28..48).contains(&y));
    let said = out("run STUDIES/post.study --steps 20");
    assert_eq!((value(&said, "obstacle cells"), value(&said, "fingerprint")), ("400", &print(&post)[..]));
}

#[test]
fn a_checkpoint_is_saved_after_the_call_and_a_run_from_it_ends_as_one_that_never_stopped() {
    let (saved, into) = (study("past-saved", CHANNEL), "MADE/past-saved");
    let _ = fs::remove_dir_all(path(into));
    let straight = out(&format!("run {saved} --every 1 --into {into} --save {into}/end"));
    for step in [1, 2, 20, 35] {
        let file = fs::read(path(&format!("{into}/step-{step:010}.checkpoint"))).unwrap();
        assert!(file == channel(step.into()).checkpoint_file(step).unwrap(), "step {step}");
        let resumed = out(&format!("run {saved} --from {into}/step-{step:010}.checkpoint --steps {}", 35 - step));
        assert_eq!(value(&resumed, "fingerprint"), value(&straight, "fingerprint"), "from step {step}");
    }
    assert!(fs::read(path(&format!("{into}/end"))).unwrap() == channel(35).checkpoint_file(35).unwrap());
}

#[test]
fn a_ruined_state_is_said_where_an_obstacle_has_it_too() {
    let hollow = "sides 2 1\nviscosity 1\nsteps 0\nstart uniform inf 0 0\nobstacle 0 0\n";
    let (said, wrong) = ruined(&format!("run {}", study("past-ruined", hollow)));
    assert_eq!((value(&said, "obstacle cells"), value(&said, "mass")), ("1", "inf"));
    assert!(wrong.contains("the state at step 0 is ruined: ") && wrong.contains("cell is x 0, y 0, "), "{wrong}");
}

#[test]
fn a_steady_run_of_a_study_with_obstacles_is_refused_before_anything_is_done() {
    let (past, end) = (study("past-steady", CHANNEL), "MADE/missing/end");
    let (status, said) = failed(&format!("steady {past} --save {end}"));
    assert_eq!(status, Some(1));
    let why = "a steady run knows no obstacles, and this study has some; `run` takes its steps past them";
    assert!(said.ends_with(&format!("past-steady.study: {why}\n")), "{said}");
    // Without them it is the place of the end that is wrong.
    let plain = study("past-steady-none", &CHANNEL.replace("obstacle", "# obstacle"));
    assert_eq!(failed(&format!("steady {plain} --save {end}")).0, Some(3));
}

#[test]
fn the_lossless_question_is_of_streaming_and_faces_alone() {
    let posts = "sides 3 2\nviscosity 0.1\nsteps 0\nobstacle 1 0 to 2 1\n";
    assert_eq!(out(&format!("lossless {}", study("posts", posts))), "lossless\n");
    assert_eq!(out(&format!("lossless {}", study("posts-lossy", &format!("{posts}x-min no-slip\n")))), "lossy 2 0 1\n");
}

#[test]
fn a_wrong_obstacle_is_named_with_file_and_line_and_wrong_sides_are_the_librarys_to_refuse() {
    let cases = [
        ("obstacle 12 0", "expected an obstacle on the grid, x from 0 to 11 and y from 0 to 6, found `obstacle 12 0`"),
        ("obstacle 8 5 to 8 3", "expected cells that no line above names (line 9 has x 8, y 4), found `obstacle 8 5 to 8 3`"),
        ("obstacle 1", "expected obstacle X Y or obstacle X Y to X Y, in whole numbers, found `obstacle 1`"),
    ];
    for (line, why) in cases {
        let wrong = study("past-wrong", &format!("{CHANNEL}{line}\n"));
        for words in ["run", "steady", "lossless"] {
            let (status, said) = failed(&format!("{words} {wrong}"));
            assert_eq!(status, Some(2), "{words}: {line}");
            assert!(said.ends_with(&format!("past-wrong.study: line 11: {why}\n")), "{words}: {said}");
        }
    }
    let sides = study("past-sides", &CHANNEL.replace("12 7", "4097 7"));
    for words in ["run", "steady", "lossless"] {
        let (status, said) = failed(&format!("{words} {sides}"));
        assert_eq!(status, Some(1), "{words}");
        assert!(said.contains("past-sides.study: refused with number 1: "), "{words}: {said}");
    }
}
