//! The floor: what it does to readings and collisions, which operations are refused for it and in what order, and studies that
//! have one at the command.

mod asked;
mod document;

use asked::{failed, out, path, ruined, study, value};
use brothwagon::{Collision, FLOOR, Face, Obstacle, Refusal, Settings, Start, Study, StudyFile, ffi};
use std::fs;

/// What no floor can be: not finite, or not above 0.
const BAD: [f64; 8] = [f64::NAN, -f64::NAN, f64::INFINITY, f64::NEG_INFINITY, 0.0, -0.0, -1e-12, -5e-324];

const LEAST: f64 = 5e-324;

fn bits(numbers: &[f64]) -> Vec<u64> {
    numbers.iter().map(|number| number.to_bits()).collect()
}

/// An operation of a study, and its answer as patterns.
type Operation = fn(&mut Study) -> Result<Vec<u64>, Refusal>;

/// Those that hold a density to the floor.
const TESTING: [(&str, Operation); 6] = [
    ("velocity", |study| study.velocity(1, 1).map(|u| bits(&u))),
    ("velocity_field", |study| study.velocity_field().map(bits)),
    ("kinetic_energy", |study| study.kinetic_energy().map(|energy| bits(&[energy]))),
    ("step", |study| study.step().map(|()| Vec::new())),
    ("run", |study| study.run(3).map(|()| Vec::new())),
    ("run_to_steady_state", |study| {
        study.run_to_steady_state(0.0, 3, 2).map(|end| vec![end.settled.into(), end.steps, end.residual.to_bits()])
    }),
];

/// All others.
const OTHER: [(&str, Operation); 10] = [
    ("initialize", |study| study.initialize_uniform(1.5, 0.1, -0.05).map(|()| Vec::new())),
    ("density", |study| study.density(1, 1).map(|rho| bits(&[rho]))),
    ("total_mass", |study| study.total_mass().map(|mass| bits(&[mass]))),
    ("plane", |study| study.plane(5).map(bits)),
    ("stream_with_faces", |study| study.stream_with_faces().map(|()| Vec::new())),
    ("lossless", |study| study.lossless().map(|answer| format!("{answer:?}").bytes().map(u64::from).collect())),
    ("reverse", |study| study.reverse().map(|()| Vec::new())),
    ("set_no_slip_bc", |study| study.set_no_slip_bc(&[Obstacle { x: 1, y: 0 }]).map(|()| Vec::new())),
    ("checkpoint_file", |study| study.checkpoint_file(7).map(|file| file.into_iter().map(u64::from).collect())),
    ("tally", |study| study.tally().map(|tally| vec![tally.all()])),
];

/// A flow on a grid of 3 by 2, with numbers in every buffer and then this floor.
fn flow(floor: f64) -> Study {
    let mut study = Study::new(Settings { fx: 1e-3, ..Settings::new(3, 2, 0.1) }).unwrap();
    study.initialize_with(|x, y| [1.0 + x as f64 / 8.0, 0.05, y as f64 / 64.0]).unwrap();
    study.velocity_field().unwrap();
    for (at, entry) in study.post_mut().iter_mut().enumerate() {
        *entry = at as f64;
    }
    study.change(Settings { floor, ..*study.settings() }).unwrap();
    study
}

/// What a study's buffers hold.
fn held(study: &Study) -> Vec<u64> {
    bits(&[study.f(), study.post(), study.snapshot()].concat())
}

#[test]
fn the_floor_of_the_source_is_the_default() {
    assert_eq!((FLOOR, Settings::new(3, 2, 0.1).floor, ffi::Settings::default().floor), (1e-12, 1e-12, 1e-12));
}

#[test]
fn the_header_counts_the_words_that_are_read() {
    let header = include_str!("../../../include/brothwagon.h");
    let words = size_of::<ffi::Settings>() / 8;
    assert!(header.contains(&format!("}} brothwagon_settings; /* {words} words of 8 bytes */")));
    assert!(header.contains(&format!("/* All {words} words are read, so a host that was compiled with {}, before", words - 1)));
}

#[test]
fn a_bad_floor_is_refused_by_those_that_use_it_and_nothing_is_written() {
    for floor in BAD {
        for (name, operation) in TESTING {
            let mut study = flow(floor);
            assert_eq!(operation(&mut study), Err(Refusal::Rate), "{name}, {floor:?}");
            assert_eq!(held(&study), held(&flow(floor)), "{name}, {floor:?}");
        }
        assert_eq!(flow(floor).first_bad_cell(), Err(Refusal::Rate));
        assert_eq!(flow(floor).ask_past(&[]), Err(Refusal::Rate));
    }
}

#[test]
fn no_other_operation_looks_at_the_floor() {
    for floor in BAD.into_iter().chain([LEAST, f64::MAX]) {
        for (name, operation) in OTHER {
            let (mut study, mut usual) = (flow(floor), flow(1e-12));
            let answer = operation(&mut study);
            assert!(answer.is_ok(), "{name}, {floor:?}");
            assert_eq!(answer, operation(&mut usual), "{name}, {floor:?}");
            assert_eq!(held(&study), held(&usual), "{name}, {floor:?}");
        }
    }
}

#[test]
fn the_least_floor_and_the_highest_are_allowed() {
    for (name, operation) in TESTING {
        // All densities of the flow are about 1.
        let (mut least, mut usual) = (flow(LEAST), flow(1e-12));
        assert_eq!(operation(&mut least).unwrap(), operation(&mut usual).unwrap(), "{name}");
        assert_eq!(held(&least), held(&usual), "{name}");
        assert!(operation(&mut flow(f64::MAX)).is_ok(), "{name}");
    }
    assert!(flow(f64::MAX).velocity_field().unwrap().iter().all(|&component| component == 0.0));
}

/// Settings in which everything is bad that comes after the floor.
fn all_bad() -> ffi::Settings {
    let face = Face::Velocity(f64::NAN, 1.0);
    ffi::Settings::from(&Settings { floor: 0.0, fx: f64::NAN, x_min: face, ..Settings::new(3, 2, 0.1) })
}

/// The numbers of the six that use the floor, with buffers of these lengths; each answer is zeros, and no buffer is written.
fn numbers(s: &ffi::Settings, fs: usize, posts: usize, us: usize) -> [u32; 6] {
    let (mut f, mut post, mut u) = (vec![2.5; fs], vec![3.5; posts], vec![4.5; us]);
    let (velocity, at) = ffi::velocity(s, &f, 3, 2);
    let field = ffi::velocity_field(s, &f, &mut u);
    let (energy, of_all) = ffi::kinetic_energy(s, &f);
    let step = ffi::step(s, &mut f, &mut post);
    let run = ffi::run(s, u64::MAX, &mut f, &mut post);
    let (steady, end) = ffi::run_to_steady_state(s, f64::NAN, 1, 1, &mut f, &mut post, &mut u);
    assert_eq!((at, of_all, end), ([0.0; 2], 0.0, [0; 3]));
    assert_eq!((f, post, u), (vec![2.5; fs], vec![3.5; posts], vec![4.5; us]));
    [velocity, field, energy, step, run, steady]
}

#[test]
fn a_bad_floor_comes_after_sides_and_lengths_and_before_all_else() {
    let bad = all_bad();
    assert_eq!(numbers(&bad, 54, 54, 12), [3; 6]);
    assert_eq!(numbers(&bad, 53, 54, 12), [2; 6]);
    assert_eq!(numbers(&bad, 54, 55, 12), [3, 3, 3, 2, 2, 2]);
    assert_eq!(numbers(&bad, 54, 54, 11), [3, 2, 3, 3, 3, 2]);
    assert_eq!(numbers(&ffi::Settings { nx: 0, ..bad }, 53, 55, 11), [1; 6]);
    // With a good one, each is refused for what comes next.
    assert_eq!(numbers(&ffi::Settings { floor: 1e-12, ..bad }, 54, 54, 12), [4; 6]);
    // The density looks at neither floor nor force.
    assert_eq!(ffi::density(&bad, &[2.5; 54], 3, 2), (6, 0.0));
}

#[test]
fn readings_test_the_floor_alone() {
    let f = [0.25; 54];
    let no_rates = ffi::Settings { nu: f64::NAN, collision: 7, rate: f64::NAN, ..(&Settings::new(3, 2, 0.1)).into() };
    for (floor, number) in [(1e-12, 0), (f64::NAN, 3)] {
        let s = ffi::Settings { floor, ..no_rates };
        assert_eq!(ffi::velocity(&s, &f, 0, 0).0, number);
        assert_eq!(ffi::velocity_field(&s, &f, &mut [0.0; 12]), number);
        assert_eq!(ffi::kinetic_energy(&s, &f).0, number);
        assert_eq!(ffi::step(&s, &mut f.clone(), &mut f.clone()), 3);
    }
}

/// Densities just below a floor, at it and just above, of both signs.
fn about(floor: f64) -> impl Iterator<Item = f64> {
    let three = [floor.next_down(), floor, floor.next_up()];
    three.into_iter().flat_map(|density| [density, -density]).filter(|density| density.is_finite())
}

/// One cell that collides with tau 2, in which all goes along x: its density is that population.
fn cell(density: f64, floor: f64, collision: Collision) -> Study {
    let mut study = Study::new(Settings { floor, collision, ..Settings::new(1, 1, 0.5) }).unwrap();
    study.f_mut()[1] = density;
    study
}

#[test]
fn a_reading_is_at_rest_below_the_floor() {
    for floor in [LEAST, 1e-300, 1e-20, 1e-12, 1.0, 1e300, f64::MAX] {
        for density in about(floor) {
            let ux = if density >= floor { 1.0 } else { 0.0 };
            let mut cell = cell(density, floor, Collision::Bgk);
            assert_eq!(cell.velocity(0, 0), Ok([ux, 0.0]), "density {density:?}, floor {floor:?}");
            assert_eq!(cell.velocity_field(), Ok(&[ux, 0.0][..]), "density {density:?}, floor {floor:?}");
            assert_eq!(cell.kinetic_energy(), Ok(0.5 * density * ux), "density {density:?}, floor {floor:?}");
        }
    }
}

/// The cell's equilibrium: a weight, the density, and 1 + 3eu + 4.5·eu·eu - 1.5·uu. All e·u are ux, 0 or -ux.
fn equilibrium(density: f64, ux: f64) -> [f64; 9] {
    let along = [0.0, 1.0, 0.0, -1.0, 0.0, 1.0, -1.0, -1.0, 1.0];
    let weight = |i| {
        if i == 0 {
            4.0 / 9.0
        } else if i < 5 {
            1.0 / 9.0
        } else {
            1.0 / 36.0
        }
    };
    std::array::from_fn(|i| {
        let eu = along[i] * ux;
        weight(i) * density * (1.0 + 3.0 * eu + 4.5 * eu * eu - 1.5 * (ux * ux))
    })
}

#[test]
fn a_collision_is_at_rest_where_the_magnitude_is_below_the_floor() {
    for floor in [1e-300, 1e-20, 1e-12, 1.0, 1e300] {
        for density in about(floor) {
            let inverse = if density.abs() < floor { 0.0 } else { 1.0 / density };
            let after = equilibrium(density, density * inverse);
            let mut cell = cell(density, floor, Collision::Bgk);
            let expected: Vec<f64> = cell.f().iter().zip(after).map(|(f, after)| f - 0.5 * (f - after)).collect();
            cell.step().unwrap();
            assert_eq!(cell.f(), expected, "density {density:?}, floor {floor:?}");
        }
    }
}

#[test]
fn every_kind_of_collision_has_the_floor() {
    // The second row of M. The cell's moment is minus its density; that of its equilibrium is the density if the cell moves, and
    // minus twice the density at rest. Bgk and Trt relax it with 0.5, Mrt with 1.64.
    let row = [-4.0, -1.0, -1.0, -1.0, -1.0, 2.0, 2.0, 2.0, 2.0];
    for (collision, moves, at_rest) in
        [(Collision::Bgk, 0.0, -1.5), (Collision::Trt(1.25), 0.0, -1.5), (Collision::Mrt, 2.28, -2.64)]
    {
        for floor in [1e-20, 1e-12, 1.0] {
            for density in about(floor) {
                let mut cell = cell(density, floor, collision);
                cell.step().unwrap();
                let moment: f64 = row.iter().zip(cell.f()).map(|(m, f)| m * f).sum();
                let expected = density * if density.abs() < floor { at_rest } else { moves };
                let near = (moment - expected).abs() < 1e-13 * density.abs();
                assert!(near, "{collision:?}, density {density:?}, floor {floor:?}: {moment:?}, not {expected:?}");
            }
        }
    }
}

fn thin() -> String {
    fs::read_to_string(path("STUDIES/thin.study")).unwrap()
}

/// The thin study without its floor.
fn thin_by_the_usual_floor() -> String {
    thin().lines().filter(|line| !line.starts_with("floor")).map(|line| format!("{line}\n")).collect()
}

#[test]
fn the_thin_gas_moves_by_its_own_floor_alone() {
    let file = StudyFile::read(&thin()).unwrap();
    assert_eq!((file.settings.floor, file.start), (1e-20, Start::Uniform(1e-14, 0.0, 0.0)));
    let mut gas = file.started().unwrap();
    assert!(gas.run_to_steady_state(file.tolerance, file.steps, file.check_every).unwrap().settled);
    for y in 0..32 {
        let [ux, uy] = gas.velocity(3, y).unwrap();
        // Between two walls the speed rises evenly, from half a cell before the first row to half a cell behind the last.
        let even = 0.1 * (y as f64 + 0.5) / 32.0;
        assert!((ux - even).abs() < 1e-4 && uy.abs() < 1e-9, "y {y}: {ux}, {uy}, not {even}");
    }

    let mut usual = StudyFile::read(&thin_by_the_usual_floor()).unwrap().started().unwrap();
    usual.run(1000).unwrap();
    assert!(usual.velocity_field().unwrap().iter().all(|&component| component == 0.0));
}

#[test]
fn a_run_goes_by_the_floor_of_its_study() {
    let usual = thin_by_the_usual_floor();
    let run = |name: &str, text: &str| {
        let said = out(&format!("run {} --steps 20", study(name, text)));
        (value(&said, "fingerprint").to_string(), value(&said, "kinetic energy").to_string())
    };
    let left_out = run("left-out", &usual);
    assert_eq!(left_out, run("given", &format!("{usual}floor 1e-12\n")));
    assert_eq!(left_out.1, "0.0");
    let own = run("own", &thin());
    assert!(own.0 != left_out.0 && own.1.parse::<f64>().unwrap() > 0.0, "{own:?}");
}

#[test]
fn a_run_goes_by_a_floor_above_its_densities_too() {
    let thick = |floor: &str| format!("sides 3 2\nviscosity 0.1\nsteps 3\nstart uniform 1 0.1 0\nfloor {floor}\n");
    for command in ["run", "steady"] {
        for (floor, moves) in [("0.5", true), ("1.5", false), ("1e300", false)] {
            let said = out(&format!("{command} {}", study(&format!("{command}-above-{floor}"), &thick(floor))));
            assert_eq!(value(&said, "kinetic energy") != "0.0", moves, "{command}, {floor}: {said}");
        }
    }
}

#[test]
fn a_run_from_a_checkpoint_and_a_steady_one_go_by_the_floor_of_their_study() {
    let whole = out("run STUDIES/thin.study --steps 20");
    out("run STUDIES/thin.study --steps 10 --save MADE/thin-half");
    let on = out("run STUDIES/thin.study --steps 10 --from MADE/thin-half");
    assert_eq!(value(&on, "fingerprint"), value(&whole, "fingerprint"));
    assert_eq!(value(&on, "kinetic energy"), value(&whole, "kinetic energy"));
    for from in ["", " --from MADE/thin-half"] {
        let settled = out(&format!("steady STUDIES/thin.study{from}"));
        assert!(value(&settled, "kinetic energy").parse::<f64>().unwrap() > 0.0, "{settled}");
    }
}

#[test]
fn a_bad_floor_is_refused_before_the_first_step() {
    for floor in ["nan", "inf", "-inf", "0", "-0", "-1e-12", "-5e-324"] {
        let bad = study("bad-floor", &format!("sides 2 2\nviscosity 1\nsteps 5\nforce inf 0\nfloor {floor}\n"));
        // Where the end is to be saved is looked at later.
        for words in [format!("run {bad}"), format!("run {bad} --steps 0 --save MADE/missing/end"), format!("steady {bad}")] {
            let (status, said) = failed(&words);
            assert_eq!(status, Some(1), "{words}, {floor}");
            assert!(said.contains("bad-floor.study: refused with number 3: "), "{words}, {floor}: {said}");
            assert!(said.ends_with(", or the floor is not finite or not above 0\n"), "{words}, {floor}: {said}");
        }
        assert_eq!(out(&format!("lossless {bad}")), "lossless\n");
    }
    let wrong = study("no-floor", "sides 2 2\nviscosity 1\nsteps 5\nfloor low\n");
    for words in ["run", "steady", "lossless"] {
        let (status, said) = failed(&format!("{words} {wrong}"));
        assert_eq!(status, Some(2), "{words}");
        assert!(said.ends_with("no-floor.study: line 4: expected floor NUMBER, found `floor low`\n"), "{words}: {said}");
    }
}

/// Makes a checkpoint of one cell with these populations.
fn checkpoint(name: &str, f: [f64; 9]) -> String {
    let made = format!("MADE/{name}.checkpoint");
    fs::write(path(&made), document::checkpoint(1, 1, 7, &f)).unwrap();
    made
}

#[test]
fn show_reads_velocities_with_the_floor_that_it_is_given() {
    let rho = 2f64.powi(-50);
    let thin = checkpoint("thin", [0.0, rho, 0.0, 0.0, 0.0, 0.0, 0.0, 0.0, 0.0]);
    let usual = out(&format!("show {thin}"));
    assert_eq!(value(&usual, "kinetic energy"), "0.0");
    assert!(!usual.contains("floor"));
    let same = out(&format!("show --floor 1/1000000000000 {thin}"));
    assert_eq!(same.replace("  floor             1e-12\n", ""), usual);
    let shown = out(&format!("show {thin} --floor 1e-20"));
    assert_eq!((value(&shown, "floor"), value(&shown, "kinetic energy")), ("1e-20", &*format!("{:?}", 0.5 * rho)));
    assert_eq!(value(&shown, "fingerprint"), value(&usual, "fingerprint"));

    let thick = checkpoint("thick", [0.0, 3.0, 0.0, 0.0, 0.0, 0.0, 0.0, 0.0, 0.0]);
    for (floor, energy) in [("0.5", "1.5"), ("3", "1.5"), ("3.5", "0.0"), ("1e300", "0.0")] {
        assert_eq!(value(&out(&format!("show {thick} --floor {floor}")), "kinetic energy"), energy, "{floor}");
    }

    // A density of 1e-13, and a momentum that has no finite velocity with it.
    let fast = checkpoint("fast", [0.0, 1e300, 0.0, -1e300, 0.0, 0.0, 0.0, 0.0, 1e-13]);
    assert_eq!(value(&out(&format!("show {fast}")), "kinetic energy"), "0.0");
    let (shown, wrong) = ruined(&format!("show {fast} --floor 1e-20"));
    assert_eq!(value(&shown, "kinetic energy"), "inf");
    assert!(wrong.contains("the first such cell is x 0, y 0, with density 1e-13 and velocity (inf, -1.0)"), "{wrong}");
}

#[test]
fn show_refuses_a_bad_floor_and_takes_no_word_for_one() {
    let any = checkpoint("any", [1.0; 9]);
    for floor in ["nan", "inf", "0", "-0", "-1", "1/0"] {
        let (status, said) = failed(&format!("show {any} --floor {floor}"));
        assert_eq!(status, Some(1), "{floor}");
        assert!(said.contains(&format!("--floor {floor}: refused with number 3: ")), "{floor}: {said}");
    }
    for words in ["--floor low", "--floor", "--floor 1 --floor 1", "--from 1", "MADE/other"] {
        assert_eq!(failed(&format!("show {any} {words}")).0, Some(2), "{words}");
    }
}
