//! Checkpoints of the command: what a run saves, what it starts from, what it refuses, and what a failure or a kill leaves.

mod asked;
mod document;
mod files;
mod tallies;

use asked::{brothwagon, failed, out, path, ruined, study, value};
use files::{bytes, folder, names, put};
use std::fs::{self, Permissions};
use std::os::unix::fs::{FileExt, PermissionsExt, symlink};
use std::process::{Command, Stdio};
use std::sync::OnceLock;
use std::thread::sleep;
use std::time::{Duration, Instant};

/// Entries with every byte in use, a NaN among them.
fn entries(cells: usize) -> Vec<f64> {
    let mut f: Vec<f64> = (0..9 * cells as u64).map(|at| f64::from_bits(0x3f01_0203_0405_0607 + (at << 24))).collect();
    f[5] = f64::from_bits(0xfff0_dead_beef_0001);
    f
}

#[test]
fn a_run_that_was_saved_and_loaded_ends_as_one_that_never_stopped() {
    let made = folder("resumed");
    for study in ["cavity", "channel"] {
        let run = format!("run STUDIES/{study}.study");
        let straight = out(&format!("{run} --steps 600 --save {made}/straight"));
        out(&format!("{run} --steps 350 --save {made}/half"));
        let resumed = out(&format!("{run} --from {made}/half --steps 250 --save {made}/resumed"));
        assert_eq!(value(&resumed, "fingerprint"), value(&straight, "fingerprint"));
        assert_eq!((value(&resumed, "from step"), value(&resumed, "to step")), ("350", "600"));
        assert!(bytes(&format!("{made}/resumed")) == bytes(&format!("{made}/straight")), "{study}");
        assert!(bytes(&format!("{made}/half")) != bytes(&format!("{made}/straight")), "{study}");
    }
    assert_eq!(names(&made), ["half", "half.tally", "resumed", "resumed.tally", "straight", "straight.tally"]);
}

#[test]
fn a_saved_file_has_the_bytes_of_the_document() {
    let made = folder("bytes");
    // At rest, a cell's entries are the weights.
    let rest = study("rest", "sides 1 1\nviscosity 0.1\nsteps 0\n");
    out(&format!("run {rest} --save {made}/rest"));
    let (axis, diagonal) = (1.0 / 9.0, 1.0 / 36.0);
    let weights = [4.0 / 9.0, axis, axis, axis, axis, diagonal, diagonal, diagonal, diagonal];
    assert_eq!(bytes(&format!("{made}/rest")), document::checkpoint(1, 1, 0, &weights));
    assert_eq!(bytes(&format!("{made}/rest.tally")), tallies::file(&tallies::of(&weights)));

    // No step: all bits go through as they are, a NaN's too.
    let sides = study("sides", "sides 3 2\nviscosity 0.1\nsteps 0\n");
    let file = document::checkpoint(3, 2, 0x0102_0304, &entries(6));
    put(&format!("{made}/in"), &file);
    ruined(&format!("run {sides} --from {made}/in --save {made}/out"));
    assert_eq!(bytes(&format!("{made}/out")), file);
    assert_eq!(bytes(&format!("{made}/out.tally")), tallies::file(&tallies::of(&entries(6))));
}

#[test]
fn checkpoints_along_the_way_are_those_that_shorter_runs_save() {
    let made = folder("along");
    let flow = study("along", "sides 5 4\nviscosity 0.1\nforce 1e-5 0\nstart shear 1 0.1 0.02\nsteps 35\n");
    let said = out(&format!("run {flow} --every 10 --into {made}/all --save {made}/end"));
    assert!(value(&said, "checkpoints").starts_with("3 in "), "{said}");
    assert!(value(&said, "saved as").ends_with("end"), "{said}");
    let expected = ["step-0000000010.checkpoint", "step-0000000020.checkpoint", "step-0000000030.checkpoint"];
    assert_eq!(names(&format!("{made}/all")), expected.map(|name| [name.to_string(), format!("{name}.tally")]).concat());
    for (name, steps) in expected.iter().zip([10, 20, 30]) {
        out(&format!("run {flow} --steps {steps} --save {made}/short"));
        assert_eq!(bytes(&format!("{made}/all/{name}")), bytes(&format!("{made}/short")));
        assert_eq!(bytes(&format!("{made}/all/{name}.tally")), bytes(&format!("{made}/short.tally")));
    }

    // From step 20 on, in sevens: 21 and 28, of which the second is the end.
    let from = format!("--from {made}/all/{}", expected[1]);
    let said = out(&format!("run {flow} --steps 8 {from} --into {made}/sevens --every 7"));
    assert!(value(&said, "checkpoints").starts_with("2 in "), "{said}");
    let sevens = ["step-0000000021.checkpoint", "step-0000000028.checkpoint"];
    assert_eq!(names(&format!("{made}/sevens")), sevens.map(|name| [name.to_string(), format!("{name}.tally")]).concat());
    out(&format!("run {flow} --steps 28 --save {made}/short"));
    assert_eq!(bytes(&format!("{made}/sevens/step-0000000028.checkpoint")), bytes(&format!("{made}/short")));

    // The end may be saved in the folder that is made.
    out(&format!("run {flow} --steps 8 --every 9 --into {made}/new --save {made}/new/end"));
    assert_eq!(names(&format!("{made}/new")), ["end", "end.tally"]);
}

#[test]
fn a_steady_run_starts_from_a_checkpoint_and_is_saved_too() {
    let made = folder("steady");
    let tube =
        study("tube", "sides 3 8\nviscosity 0.1\nforce 1e-5 0\ny-min no-slip\ny-max no-slip\nsteps 9000\nsteady 1e-6 10\n");
    out(&format!("run {tube} --steps 7 --save {made}/seven"));
    let said = out(&format!("steady {tube} --save {made}/steady --from {made}/seven"));
    let steps: u64 = value(&said, "settled, steps").parse().unwrap();
    assert_eq!((value(&said, "from step"), value(&said, "to step")), ("7", &(7 + steps).to_string()[..]));
    assert!(value(&said, "saved as").ends_with("steady"), "{said}");
    out(&format!("run {tube} --steps {} --save {made}/run", 7 + steps));
    assert_eq!(bytes(&format!("{made}/steady")), bytes(&format!("{made}/run")));
    assert_eq!(bytes(&format!("{made}/steady.tally")), bytes(&format!("{made}/run.tally")));
}

#[test]
fn show_says_what_a_run_said_at_its_end() {
    let made = folder("shown");
    let ran = out(&format!("run STUDIES/channel.study --steps 20 --save {made}/end"));
    let shown = out(&format!("show {made}/end"));
    assert!(shown.lines().next().unwrap().ends_with("end: 160 by 40"), "{shown}");
    assert_eq!(value(&shown, "step"), "20");
    for name in ["mass", "kinetic energy", "fingerprint"] {
        assert_eq!(value(&shown, name), value(&ran, name));
    }
}

#[test]
fn a_checkpoint_that_is_refused_is_named_with_the_number() {
    let made = folder("refused");
    let file = format!("{made}/bad");
    let good = document::checkpoint(3, 2, 350, &entries(6));
    let other = |at: usize, byte: u8| [&good[..at], &[byte], &good[at + 1..]].concat();
    let text = bytes("STUDIES/cavity.study");
    let cases = [(good[..4].to_vec(), 12), (other(4, 2), 13), (text, 13), (good[..8].to_vec(), 14), (other(6, 0), 1)];
    let lengths = [(good[..12].to_vec(), 15), (good[..444].to_vec(), 15), (other(3, 0), 15), ([&good[..], &[0]].concat(), 15)];
    let three_by_two = study("refused", "sides 3 2\nviscosity 0.1\nsteps 5\n");
    for (bytes, number) in cases.into_iter().chain(lengths) {
        put(&file, &bytes);
        for words in [format!("show {file}"), format!("run {three_by_two} --from {file} --save {made}/end")] {
            let (status, said) = failed(&words);
            assert_eq!(status, Some(1), "{words}: {said}");
            assert!(said.starts_with(&format!("brothwagon: {}: refused with number {number}: ", path(&file))), "{said}");
        }
    }
    assert_eq!(names(&made), ["bad"]);
}

#[test]
fn the_largest_file_is_read_and_one_without_end_is_not() {
    let made = folder("largest");
    let largest = format!("{made}/largest");
    put(&largest, &document::checkpoint(4096, 256, 350, &[]));
    let file = fs::OpenOptions::new().write(true).open(path(&largest)).unwrap();
    let count: u32 = 9 + 72 * 4096 * 256;
    file.write_all_at(&count.to_be_bytes(), 0).unwrap();
    file.set_len(4 + u64::from(count)).unwrap();
    // That it is accepted shows by its sides, which are not the study's.
    let cell = study("largest", "sides 1 1\nviscosity 0.1\nsteps 5\n");
    let (_, said) = failed(&format!("run {cell} --from {largest}"));
    assert!(said.ends_with("holds a state of 4096 by 256\n"), "{said}");

    file.set_len(5 + u64::from(count)).unwrap();
    let (_, said) = failed(&format!("show {largest}"));
    assert!(said.contains("largest: refused with number 15: "), "{said}");
    let (_, said) = failed("show /dev/zero");
    assert!(said.contains("/dev/zero: refused with number 13: "), "{said}");
}

#[test]
fn a_state_of_other_sides_is_refused_with_both() {
    let made = folder("turned");
    put(&format!("{made}/turned"), &document::checkpoint(2, 3, 350, &entries(6)));
    let three_by_two = study("turned", "sides 3 2\nviscosity 0.1\nsteps 5\n");
    let (status, said) = failed(&format!("run {three_by_two} --from {made}/turned --save {made}/end"));
    assert_eq!(status, Some(1));
    let expected =
        format!("turned.study: the study is 3 by 2, and {} holds a state of 2 by 3\n", path(&format!("{made}/turned")));
    assert!(said.ends_with(&expected), "{said}");
    assert_eq!(names(&made), ["turned"]);
}

#[test]
fn a_step_number_that_has_no_room_is_refused_before_the_run() {
    let made = folder("late");
    put(&format!("{made}/late"), &document::checkpoint(1, 1, u32::MAX - 5, &[0.1; 9]));
    let cell = study("late", "sides 1 1\nviscosity 0.1\nsteps 6\n");
    let run = format!("run {cell} --from {made}/late");
    for saves in [format!("--save {made}/end"), format!("--every 1 --into {made}/all")] {
        let (status, said) = failed(&format!("{run} {saves}"));
        assert_eq!(status, Some(1));
        assert!(said.contains("late.study: 6 steps from step 4294967290 on cannot be saved: "), "{said}");
    }
    assert_eq!(failed(&format!("run {cell} --steps 18446744073709551615 --save {made}/end")).0, Some(1));
    assert_eq!(names(&made), ["late"]);
    // What is not saved may go on, and the last number may be saved.
    assert_eq!(value(&out(&run), "to step"), "4294967296");
    out(&format!("{run} --steps 5 --save {made}/end"));
    assert_eq!(value(&out(&format!("show {made}/end")), "step"), "4294967295");
}

#[test]
fn a_place_that_cannot_be_read_or_written_is_said_before_the_run() {
    let made = folder("places");
    put(&format!("{made}/file"), b"");
    put(&format!("{made}/kept"), b"kept");
    fs::set_permissions(path(&format!("{made}/kept")), Permissions::from_mode(0o444)).unwrap();
    fs::create_dir(path(&format!("{made}/end.tally"))).unwrap();
    assert!(Command::new("mkfifo").arg(path(&format!("{made}/pipe"))).status().unwrap().success());
    let cell = study("places", "sides 1 1\nviscosity 0.1\nsteps 5\n");
    // A step that was taken would leave its checkpoint in `all`.
    let cases = [
        ("--every 1 --into MADE/places/all --from MADE/places/missing", 2, "missing: No such file"),
        ("--every 1 --into MADE/places/all --from MADE/places", 2, "places: Is a directory"),
        ("--every 1 --into MADE/places/all --save MADE/places", 3, "places: is a directory"),
        ("--every 1 --into MADE/places/all --save MADE/places/new/", 3, "new/: is a directory"),
        ("--every 1 --into MADE/places/all --save MADE/places/missing/end", 3, "missing/end: No such file"),
        ("--every 1 --into MADE/places/all --save MADE/places/file/end", 3, "file/end: Not a directory"),
        ("--every 1 --into MADE/places/all --save MADE/places/kept", 3, "kept: it is read-only"),
        ("--every 1 --into MADE/places/all --save MADE/places/pipe", 3, "pipe: it is no plain file"),
        ("--every 1 --into MADE/places/all --save MADE/places/end", 3, "end.tally: is a directory"),
        ("--every 9 --into MADE/places/file", 3, "file: Not a directory"),
        ("--every 9 --into MADE/places/missing/all", 3, "all: No such file"),
    ];
    for (words, expected, why) in cases {
        let (status, said) = failed(&format!("run {cell} {words}"));
        assert_eq!(status, Some(expected), "{words}: {said}");
        assert!(said.contains(why), "{words}: {said}");
    }
    assert_eq!(names(&made), ["all", "end.tally", "file", "kept", "pipe"]);
    assert!(names(&format!("{made}/all")).is_empty());
    assert_eq!(bytes("MADE/places/kept"), b"kept");
}

#[test]
fn a_save_that_fails_leaves_the_old_file_and_no_other() {
    let made = folder("full");
    let old = document::checkpoint(1, 1, 350, &[0.1; 9]);
    let large = study("full", "sides 64 64\nviscosity 0.1\nsteps 5\n");
    for (name, saves) in [("end", "--save MADE/full/end"), ("step-0000000005.checkpoint", "--every 5 --into MADE/full")] {
        put(&format!("{made}/{name}"), &old);
        put(&format!("{made}/{name}.tally"), b"the old tally");
        // No file may get longer than a few hundred bytes.
        let limited = ["-c", "trap '' XFSZ; ulimit -f 1; exec \"$0\" \"$@\"", env!("CARGO_BIN_EXE_brothwagon"), "run"];
        let words = format!("{large} {saves}");
        let end = Command::new("sh").args(limited).args(words.split(' ').map(path)).output().unwrap();
        let said = String::from_utf8(end.stderr).unwrap();
        assert_eq!(end.status.code(), Some(3), "{said}");
        assert!(said.contains(&format!("full/{name}: File too large")), "{said}");
        assert!(end.stdout.is_empty());
        assert_eq!(bytes(&format!("{made}/{name}")), old);
        assert_eq!(bytes(&format!("{made}/{name}.tally")), b"the old tally");
    }
    assert_eq!(names(&made).len(), 4);
}

#[test]
fn a_link_is_followed_and_stays() {
    let made = folder("linked");
    fs::create_dir(path(&format!("{made}/far"))).unwrap();
    put(&format!("{made}/far/real"), b"old");
    put(&format!("{made}/far/real.tally"), b"the old tally");
    symlink("far/real", path(&format!("{made}/link"))).unwrap();
    let cell = study("linked", "sides 1 1\nviscosity 0.1\nsteps 5\n");
    out(&format!("run {cell} --save {made}/link"));
    assert!(fs::symlink_metadata(path(&format!("{made}/link"))).unwrap().is_symlink());
    assert_eq!(bytes(&format!("{made}/far/real")).len(), 85);
    // The tally stands beside the file, and is found by either name.
    assert_eq!(names(&format!("{made}/far")), ["real", "real.tally"]);
    assert_eq!(names(&made), ["far", "link"]);
    for name in ["link", "far/real"] {
        assert_eq!(value(&out(&format!("show {made}/{name}")), "tally"), "fits");
        assert_eq!(value(&out(&format!("run {cell} --from {made}/{name}")), "from tally"), "fits");
    }
    let mut damaged = bytes(&format!("{made}/far/real"));
    damaged[84] ^= 1;
    put(&format!("{made}/far/real"), &damaged);
    for words in [format!("show {made}/link"), format!("run {cell} --from {made}/link"), format!("check {made}/link")] {
        assert_eq!(brothwagon(&words).status.code(), Some(1), "{words}");
    }
}

#[test]
fn a_link_in_the_place_of_a_tally_gives_way() {
    let made = folder("linked-tally");
    let cell = study("linked-tally", "sides 1 1\nviscosity 0.1\nsteps 5\n");
    put(&format!("{made}/other"), b"another's");
    for leads in ["other", "end", "nowhere"] {
        let _ = fs::remove_file(path(&format!("{made}/end.tally")));
        symlink(leads, path(&format!("{made}/end.tally"))).unwrap();
        out(&format!("run {cell} --save {made}/end"));
        assert!(fs::symlink_metadata(path(&format!("{made}/end.tally"))).unwrap().is_file());
        assert_eq!(value(&out(&format!("show {made}/end")), "tally"), "fits");
    }
    assert_eq!(bytes(&format!("{made}/other")), b"another's");
    assert_eq!(names(&made), ["end", "end.tally", "other"]);
}

#[test]
fn what_a_killed_process_of_the_same_number_left_stays() {
    let made = folder("same");
    let cell = study("same", "sides 1 1\nviscosity 0.1\nsteps 5\n");
    let left = "cd \"$1\"; echo left >brothwagon-$$-0.unfinished; exec \"$0\" run \"$2\" --save end";
    let words = [env!("CARGO_BIN_EXE_brothwagon"), &path(&made), &path(&cell)];
    assert!(Command::new("sh").args(["-c", left]).args(words).stdout(Stdio::null()).status().unwrap().success());
    let names = names(&made);
    assert_eq!(names[1..], ["end", "end.tally"]);
    assert_eq!(bytes(&format!("{made}/{}", names[0])), b"left\n");
    assert_eq!(bytes(&format!("{made}/end")).len(), 85);
}

/// A checkpoint and its tally.
#[derive(PartialEq)]
struct Pair {
    checkpoint: Vec<u8>,
    tally: Option<Vec<u8>>,
}

impl Pair {
    fn found(file: &str) -> Pair {
        Pair { checkpoint: bytes(file), tally: fs::read(path(&format!("{file}.tally"))).ok() }
    }

    fn put(&self, file: &str) {
        put(file, &self.checkpoint);
        put(&format!("{file}.tally"), self.tally.as_ref().unwrap());
    }

    /// Whether this is what may be left where one pair replaces another: either checkpoint, with its own tally or none.
    fn is_left_of(&self, old: &Pair, new: &Pair) -> bool {
        [old, new].iter().any(|pair| self.checkpoint == pair.checkpoint && (self.tally.is_none() || self.tally == pair.tally))
    }
}

/// A run of four steps, each saved in a folder where the four pairs are already those of another run.
struct Killed {
    folder: String,
    words: String,
    old: Vec<Pair>,
    new: Vec<Pair>,
}

const FOUR: [&str; 4] =
    ["step-0000000001.checkpoint", "step-0000000002.checkpoint", "step-0000000003.checkpoint", "step-0000000004.checkpoint"];

impl Killed {
    fn new() -> Killed {
        let made = folder("killed");
        let pairs = |name: &str, ux: f64| -> Vec<Pair> {
            let flow = study(name, &format!("sides 512 256\nviscosity 0.1\nsteps 4\nstart uniform 1 {ux} 0\n"));
            out(&format!("run {flow} --every 1 --into {made}/{name}"));
            FOUR.map(|file| Pair::found(&format!("{made}/{name}/{file}"))).into()
        };
        let (old, new) = (pairs("old", 0.05), pairs("new", 0.1));
        Killed { words: format!("run MADE/new.study --every 1 --into {made}/old"), folder: format!("{made}/old"), old, new }
    }

    fn pair(&self, at: usize) -> Pair {
        Pair::found(&format!("{}/{}", self.folder, FOUR[at]))
    }

    /// Runs until it is time or it ends by itself, and kills it.
    fn run(&self, time: impl Fn(Duration) -> bool) -> Duration {
        for (name, old) in FOUR.iter().zip(&self.old) {
            old.put(&format!("{}/{name}", self.folder));
        }
        let mut command = Command::new(env!("CARGO_BIN_EXE_brothwagon"));
        let mut run = command.args(self.words.split(' ').map(path)).stdout(Stdio::null()).spawn().unwrap();
        let began = Instant::now();
        while !time(began.elapsed()) && run.try_wait().unwrap().is_none() {
            sleep(Duration::from_micros(200));
        }
        run.kill().unwrap();
        run.wait().unwrap();
        began.elapsed()
    }

    /// The bytes of a file that is being saved just now.
    fn unfinished(&self) -> u64 {
        let files = fs::read_dir(path(&self.folder)).unwrap().map(Result::unwrap);
        let unfinished = files.filter(|file| file.file_name().to_string_lossy().ends_with(".unfinished"));
        unfinished.filter_map(|file| Some(file.metadata().ok()?.len())).sum()
    }

    /// Every name has the old pair or the new one, or one of them without its tally. How many others a kill left, by the name that
    /// --help says; removes them.
    fn left(&self) -> usize {
        for (at, name) in FOUR.iter().enumerate() {
            assert!(self.pair(at).is_left_of(&self.old[at], &self.new[at]), "{name}");
        }
        let mut names = names(&self.folder);
        names.retain(|name| !FOUR.contains(&name.trim_end_matches(".tally")));
        for name in &names {
            assert!(name.starts_with("brothwagon-") && name.ends_with(".unfinished"), "{name}");
            fs::remove_file(path(&format!("{}/{name}", self.folder))).unwrap();
        }
        names.len()
    }
}

#[test]
fn a_killed_run_leaves_a_whole_file_under_each_name_and_no_other_tally() {
    const KILLS: u32 = 10;
    const LENGTH: u64 = 13 + 72 * 512 * 256;
    let killed = Killed::new();
    assert!(killed.old.iter().chain(&killed.new).all(|pair| pair.checkpoint.len() as u64 == LENGTH));
    // First once the last pair is new; then at moments before, and when so much of a file has been written.
    let whole = killed.run(|_| killed.pair(3) == killed.new[3]);
    let mut left = killed.left();
    for kill in 1..=KILLS {
        killed.run(|time| time >= whole * kill / KILLS);
        left += killed.left();
        killed.run(|time| time >= 2 * whole || killed.unfinished() > LENGTH * u64::from(kill - 1) / u64::from(KILLS));
        left += killed.left();
    }
    assert!(left > 0, "no kill came in the middle of saving");
    fs::remove_dir_all(path("MADE/killed")).unwrap();
}

/// The library that stands before the C library and writes down what a command asks of the system, built of syncs.c.
fn teller() -> String {
    static MADE: OnceLock<String> = OnceLock::new();
    let make = || {
        let made = path("MADE/syncs.so");
        let source = concat!(env!("CARGO_MANIFEST_DIR"), "/tests/syncs.c");
        let words = ["-shared", "-fPIC", "-Wall", "-Wextra", "-Werror", "-o", &made, source, "-ldl"];
        assert!(Command::new("cc").args(words).status().unwrap().success());
        made
    };
    MADE.get_or_init(make).clone()
}

/// What is asked of the system to save the end of a study, or so much of it as comes before a kill.
fn asked_to_save(study: &str, end: &str, kill: Option<usize>) -> Vec<String> {
    let told = format!("{}.told", path(end));
    let _ = fs::remove_file(&told);
    let mut command = Command::new(env!("CARGO_BIN_EXE_brothwagon"));
    command.args(["run", &path(study), "--save", &path(end)]).env("LD_PRELOAD", teller()).env("SYNCS", &told);
    command.env("KILL", kill.map_or(String::new(), |kill| kill.to_string()));
    assert_eq!(command.stdout(Stdio::null()).status().unwrap().success(), kill.is_none());
    let lines = fs::read_to_string(&told).unwrap_or_default();
    lines.lines().map(str::to_string).collect()
}

#[test]
fn a_checkpoint_and_its_tally_are_synced_then_named_one_by_one_with_their_folder_synced() {
    let made = folder("synced");
    let end = format!("{made}/end");
    let cell = study("synced", "sides 1 1\nviscosity 0.1\nsteps 5\n");
    for replaced in [false, true] {
        let told = asked_to_save(&cell, &end, None);
        let drafts: Vec<&str> = told.iter().filter_map(|line| line.strip_prefix("write ")).collect();
        let [draft, tally] = drafts[..] else { panic!("{told:?}") };
        let (end, synced) = (path(&end), format!("sync {}", path(&made)));
        let mut order = [draft, tally].map(|draft| [format!("write {draft}"), format!("sync {draft}")]).concat();
        if replaced {
            order.extend([format!("remove {end}.tally"), synced.clone()]);
        }
        order.extend([format!("rename {draft} {end}"), synced.clone(), format!("rename {tally} {end}.tally"), synced]);
        assert_eq!(told, order);
    }
}

#[test]
fn a_kill_between_any_two_requests_to_the_system_leaves_no_other_tally() {
    let made = folder("requests");
    let study = |ux: f64| study("requests", &format!("sides 1 1\nviscosity 0.1\nsteps 5\nstart uniform 1 {ux} 0\n"));
    let end = format!("{made}/end");
    let saved = |ux: f64| {
        let requests = asked_to_save(&study(ux), &end, None).len();
        (Pair::found(&end), requests)
    };
    let (new, _) = saved(0.1);
    let (old, requests) = saved(0.05);
    assert!(old.checkpoint != new.checkpoint && old.tally != new.tally);
    let mut without = [0; 2];
    for kill in 0..requests {
        old.put(&end);
        assert_eq!(asked_to_save(&study(0.1), &end, Some(kill)).len(), kill);
        let left = Pair::found(&end);
        assert!(left.is_left_of(&old, &new), "killed before request {kill}");
        without[usize::from(left.checkpoint == new.checkpoint)] += usize::from(left.tally.is_none());
    }
    // Both checkpoints have been seen without a tally.
    assert!(without[0] > 0 && without[1] > 0, "{without:?}");
}
