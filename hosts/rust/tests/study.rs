//! Every operation of a study, every refusal that its methods can meet, and what a refusal leaves.

use brothwagon::{BadCell, Collision, Face, Lossless, OtherSides, Refusal, Settings, Study, trt_omega_minus};

/// A study whose post-collision entries each hold their own index.
fn numbered(settings: Settings) -> Study {
    let mut study = Study::new(settings).unwrap();
    for (at, entry) in study.post_mut().iter_mut().enumerate() {
        *entry = at as f64;
    }
    study
}

/// A 3 by 2 grid with these faces on the x and on the y axis.
fn grid(x: Face, y: Face) -> Settings {
    Settings { x_min: x, x_max: x, y_min: y, y_max: y, ..Settings::new(3, 2, 0.1) }
}

/// Where streaming with faces puts the post-collision entry (2, 1, 5), index 35.
fn lands(settings: Settings) -> Vec<usize> {
    let mut study = numbered(settings);
    study.stream_with_faces().unwrap();
    (0..54).filter(|&at| study.f()[at] == 35.0).collect()
}

#[test]
fn streaming_moves_an_entry_as_the_faces_say() {
    assert_eq!(lands(grid(Face::Periodic, Face::Periodic)), [30]);
    assert_eq!(lands(grid(Face::NoSlip, Face::NoSlip)), [47]);
    assert_eq!(lands(grid(Face::Symmetry, Face::Periodic)), [41]);
}

#[test]
fn the_lossless_question_names_the_lowest_lost_entry() {
    let answer = |settings| Study::new(settings).unwrap().lossless();
    assert_eq!(answer(grid(Face::Symmetry, Face::NoSlip)), Ok(Lossless::Lossy { x: 2, y: 0, direction: 5 }));
    assert_eq!(answer(grid(Face::NoSlip, Face::Symmetry)), Ok(Lossless::Lossless));
    assert_eq!(answer(Settings { ny: 1, ..grid(Face::Symmetry, Face::NoSlip) }), Ok(Lossless::Lossless));
    let one_sided = Settings { x_min: Face::NoSlip, ..Settings::new(3, 2, 0.1) };
    assert_eq!(answer(one_sided), Ok(Lossless::Lossy { x: 2, y: 0, direction: 1 }));
}

#[test]
fn the_reverse_undoes_streaming_to_the_bit() {
    let mut study = numbered(grid(Face::NoSlip, Face::Symmetry));
    study.post_mut()[7] = f64::from_bits(0x7ff0_dead_beef_0001);
    let before: Vec<u64> = study.post().iter().map(|entry| entry.to_bits()).collect();
    study.stream_with_faces().unwrap();
    study.post_mut().fill(0.0);
    study.reverse().unwrap();
    let after: Vec<u64> = study.post().iter().map(|entry| entry.to_bits()).collect();
    assert_eq!(before, after);
}

#[test]
fn readings_of_a_start_are_what_it_was_made_of() {
    let mut study = Study::new(Settings::new(4, 3, 0.1)).unwrap();
    study.initialize_with(|x, y| [1.0 + x as f64 / 8.0, 0.0, y as f64 / 64.0]).unwrap();
    let near = |a: f64, b: f64| (a - b).abs() < 1e-14;
    assert!(near(study.density(3, 2).unwrap(), 1.375));
    assert!(near(study.velocity(3, 2).unwrap()[1], 2.0 / 64.0));
    assert!(near(study.total_mass().unwrap(), 3.0 * (4.0 + 6.0 / 8.0)));
    assert_eq!(study.velocity_field().unwrap().len(), 24);
    let velocity = study.velocity(1, 2).unwrap();
    assert_eq!(study.snapshot()[2 * (1 + 2 * 4)..][..2], velocity);
    assert_eq!(study.plane(8).unwrap(), &study.f()[8 * 12..]);
    assert!(study.kinetic_energy().unwrap() > 0.0);
}

#[test]
fn a_run_is_its_steps() {
    let settings = Settings { fx: 1e-5, collision: Collision::Mrt, ..grid(Face::Periodic, Face::NoSlip) };
    let mut by_run = Study::new(settings).unwrap();
    by_run.initialize_uniform(1.0, 0.0, 0.0).unwrap();
    let mut by_steps = by_run.clone();
    by_run.run(5).unwrap();
    for _ in 0..5 {
        by_steps.step().unwrap();
    }
    assert_eq!(by_run.f(), by_steps.f());
    assert_eq!(by_run.post(), by_steps.post());
}

#[test]
fn a_steady_run_settles_or_runs_out() {
    let mut study = Study::new(Settings { fx: 1e-5, ..grid(Face::Periodic, Face::NoSlip) }).unwrap();
    study.initialize_uniform(1.0, 0.0, 0.0).unwrap();
    let out = study.run_to_steady_state(1e-9, 3, 10).unwrap();
    assert!(!out.settled && out.steps == 3 && out.residual == f64::INFINITY);
    let settled = study.run_to_steady_state(1e-9, 100_000, 10).unwrap();
    assert!(settled.settled && settled.steps.is_multiple_of(10) && settled.residual < 1e-9);
}

#[test]
fn a_bad_snapshot_says_after_how_many_steps() {
    let mut study = Study::new(Settings::new(2, 2, 0.1)).unwrap();
    // At rest, with a density of minus infinity.
    study.f_mut()[1] = f64::NEG_INFINITY;
    assert_eq!(study.run_to_steady_state(1e-9, 10, 1), Err(Refusal::BadSnapshot { steps: 0 }));
    // A finite velocity whose square is not: the first step ruins it.
    study.initialize_uniform(1.0, 0.0, 0.0).unwrap();
    study.f_mut()[4] = 1e200;
    study.f_mut()[12] = -1e200;
    assert_eq!(study.run_to_steady_state(1e-9, 10, 1), Err(Refusal::BadSnapshot { steps: 1 }));
}

#[test]
fn the_first_bad_cell_has_a_density_or_a_velocity_that_is_not_finite() {
    let mut study = Study::new(Settings::new(3, 2, 0.1)).unwrap();
    study.initialize_uniform(1.0, 0.0, 0.0).unwrap();
    assert_eq!(study.first_bad_cell(), Ok(None));
    // Cell (1, 1): its density is minus infinity, its velocity reads (0, 0).
    study.f_mut()[4] = f64::NEG_INFINITY;
    let at_rest = BadCell { x: 1, y: 1, density: f64::NEG_INFINITY, velocity: [0.0, 0.0] };
    assert_eq!(study.first_bad_cell(), Ok(Some(at_rest)));
    assert_eq!(at_rest.to_string(), "x 1, y 1, with density -inf and velocity (0.0, 0.0)");
    // Cell (2, 0), which is before it: opposite directions cancel in the density alone.
    let cell = [0.0, 1e300, 0.0, -1e300, 0.0, 0.0, 0.0, 0.0, 1e-11];
    for (i, population) in cell.into_iter().enumerate() {
        study.f_mut()[2 + 6 * i] = population;
    }
    let BadCell { x, y, density, velocity } = study.first_bad_cell().unwrap().unwrap();
    assert_eq!((x, y, density, velocity[0]), (2, 0, 1e-11, f64::INFINITY));
    // A study whose velocities cannot be read is refused.
    study.change(Settings { fx: f64::NAN, ..*study.settings() }).unwrap();
    assert_eq!(study.first_bad_cell(), Err(Refusal::Force));
}

#[test]
fn each_refusal_is_reached() {
    let study = |settings| Study::new(settings).unwrap();
    let good = Settings::new(2, 2, 0.1);
    assert_eq!(Study::new(Settings::new(0, 1, 0.1)).err(), Some(Refusal::Sides));
    assert_eq!(Study::new(Settings::new(4096, 257, 0.1)).err(), Some(Refusal::Sides));
    assert!(Study::new(Settings::new(4096, 256, 0.1)).is_ok());
    assert_eq!(study(good).initialize(&[1.0; 11]), Err(Refusal::Length));
    assert_eq!(study(Settings { nu: -1.0, ..good }).step(), Err(Refusal::Rate));
    assert_eq!(study(Settings { collision: Collision::Trt(2.5), ..good }).step(), Err(Refusal::Rate));
    assert_eq!(study(Settings { fy: f64::NAN, ..good }).kinetic_energy(), Err(Refusal::Force));
    assert_eq!(study(Settings { x_min: Face::Velocity(1.0, 0.0), ..good }).step(), Err(Refusal::Face));
    assert_eq!(study(Settings { x_min: Face::Velocity(-1.0, 0.0), ..good }).step(), Ok(()));
    assert_eq!(study(good).density(2, 0), Err(Refusal::Place));
    assert_eq!(study(good).plane(9), Err(Refusal::Place));
    assert_eq!(study(Settings { y_max: Face::MovingWall(0.0, 0.0), ..good }).lossless(), Err(Refusal::NotCopying));
    assert_eq!(study(Settings { y_max: Face::NoSlip, ..good }).reverse(), Err(Refusal::Lossy));
    assert_eq!(study(good).run(1_000_001), Err(Refusal::Run));
    assert_eq!(study(good).run_to_steady_state(f64::NAN, 1, 1), Err(Refusal::Run));
}

#[test]
fn a_refused_call_writes_nothing() {
    let mut study = numbered(Settings { nu: f64::NAN, ..Settings::new(3, 2, 0.1) });
    study.f_mut().fill(2.5);
    let before = study.clone();
    assert_eq!(study.step(), Err(Refusal::Rate));
    assert_eq!(study.run_to_steady_state(0.0, 1, 1), Err(Refusal::Rate));
    assert_eq!(study.f(), before.f());
    assert_eq!(study.post(), before.post());
    assert_eq!(study.snapshot(), before.snapshot());
}

#[test]
fn settings_may_change_and_sides_may_not() {
    let mut study = Study::new(Settings::new(3, 2, 0.1)).unwrap();
    let other = study.change(Settings::new(2, 3, 0.1)).unwrap_err();
    assert_eq!(other, OtherSides { has: (3, 2), given: (2, 3) });
    assert_eq!(other.to_string(), "the study is 3 by 2 and stays so; what it is given is 2 by 3");
    assert_eq!(study.change(Settings { fx: f64::NAN, ..*study.settings() }), Ok(()));
    assert_eq!(study.step(), Err(Refusal::Force));
}

#[test]
fn the_minus_rate_of_a_magic_number() {
    // (1/1 - 0.5)·(1/ω - 0.5) = 3/16 at ω = 8/7; and where the plus rate is 2 the minus rate is 0.
    assert_eq!(trt_omega_minus(1.0, 3.0 / 16.0), 1.0 / 0.875);
    assert_eq!(Collision::trt_with_magic(0.0, 0.25), Collision::Trt(0.0));
}
