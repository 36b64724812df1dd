//! Checkpoints and their tallies at the command: what `check`, `show` and `run --from` say of them, and how they end.

mod asked;
mod document;
mod files;
mod tallies;

use asked::{brothwagon, failed, out, path, ruined, study, value};
use files::{bytes, folder, names, put};
use std::fs::{self, File};
use std::io;
use std::os::unix::fs::symlink;
use std::process::{Command, Stdio};

const STEP: u32 = 350;

/// Two cells in a row, with entries that all differ.
fn entries() -> Vec<f64> {
    (0..18).map(|at| f64::from_bits(0x3f81_0203_0405_0607 + (at << 24))).collect()
}

/// Puts a state and its tally there.
fn pair(file: &str, f: &[f64]) {
    put(file, &document::checkpoint(2, 1, STEP, f));
    put(&format!("{file}.tally"), &tallies::file(&tallies::of(f)));
}

/// What `check` says of these files, its answer and the rest, and its status.
fn check(files: &[String]) -> (Option<i32>, String, String) {
    let end = brothwagon(&format!("check {}", files.join(" ")));
    (end.status.code(), String::from_utf8(end.stdout).unwrap(), String::from_utf8(end.stderr).unwrap())
}

/// What `check` says of one file that is wrong.
fn wrong(file: &str) -> String {
    let (status, said, _) = check(&[file.to_string()]);
    assert_eq!(status, Some(1), "{said}");
    let (line, counts) = said.split_once('\n').unwrap();
    assert_eq!(counts, "1 checked: 0 fit their tallies, 0 have none, 1 is wrong\n");
    line.to_string()
}

/// Makes a copy of the pair for each bit of both files, with that bit flipped: the names of the copies, and the bytes of both, the
/// checkpoint's first, that the bits are in.
fn flipped(made: &str) -> Vec<(String, usize)> {
    let name = format!("step-{STEP:010}.checkpoint");
    pair(&format!("{made}/{name}"), &entries());
    let good = ["", ".tally"].map(|end| bytes(&format!("{made}/{name}{end}")));
    let bits = 8 * (good[0].len() + good[1].len());
    let flip = |bit: usize| {
        let copy = format!("{made}/{bit}");
        fs::create_dir(path(&copy)).unwrap();
        let mut both = good.concat();
        both[bit / 8] ^= 1 << (bit % 8);
        let (checkpoint, tally) = both.split_at(good[0].len());
        put(&format!("{copy}/{name}"), checkpoint);
        put(&format!("{copy}/{name}.tally"), tally);
        (format!("{copy}/{name}"), bit / 8)
    };
    (0..bits).map(flip).collect()
}

#[test]
fn a_flipped_bit_is_found_wherever_it_is() {
    let made = folder("bits");
    let copies = flipped(&made);
    assert_eq!(copies.len(), 8 * (157 + 85));
    let files: Vec<String> = copies.iter().map(|(file, _)| file.clone()).collect();
    let (status, said, _) = check(&files);
    assert_eq!(status, Some(1));
    let mut lines = said.lines();
    for (file, byte) in &copies {
        let line = lines.next().unwrap();
        assert!(line.starts_with(&path(file)) && line.contains(": WRONG: "), "byte {byte}: {line}");
    }
    assert_eq!(lines.next(), Some("1936 checked: 0 fit their tallies, 0 have none, 1936 are wrong"));

    // The other commands find it too, but for the step number's, which no tally covers: one bit of each byte, to be quick.
    let two = study("bits", "sides 2 1\nviscosity 0.1\nsteps 0\n");
    for (file, byte) in copies.chunks(8).enumerate().map(|(byte, bits)| &bits[byte % 8]) {
        for words in [format!("show {file}"), format!("run {two} --from {file}")] {
            let expected = if (9..13).contains(byte) { 0 } else { 1 };
            assert_eq!(brothwagon(&words).status.code(), Some(expected), "byte {byte}: {words}");
        }
    }
}

#[test]
fn an_archive_is_checked_by_all_its_names() {
    let made = folder("archive");
    let flow = study("archive", "sides 5 4\nviscosity 0.1\nstart shear 1 0.1 0.02\nsteps 30\n");
    out(&format!("run {flow} --every 10 --into {made}/all"));
    let all: Vec<String> = names(&format!("{made}/all")).iter().map(|name| format!("{made}/all/{name}")).collect();
    let [ten, twenty, thirty] = [0, 2, 4].map(|at| path(&all[at]));
    let (status, said, rest) = check(&all);
    let expected = [
        format!("{ten}: fits its tally, 5 by 4, step 10"),
        format!("{twenty}: fits its tally, 5 by 4, step 20"),
        format!("{thirty}: fits its tally, 5 by 4, step 30"),
        "3 checked: 3 fit their tallies, 0 have none, 0 are wrong".to_string(),
    ];
    assert_eq!(said.lines().collect::<Vec<_>>(), expected);
    // No terminal, so no line says how far it is.
    assert_eq!((status, &rest[..]), (Some(0), ""));

    // Of the second the tally is lost, of the third the checkpoint; a killed run has left a draft; and a file is no checkpoint.
    fs::remove_file(format!("{twenty}.tally")).unwrap();
    fs::remove_file(&thirty).unwrap();
    let draft = format!("{made}/all/brothwagon-12-0.unfinished");
    put(&draft, b"");
    let (status, said, rest) = check(&[all, vec![draft.clone(), flow.clone()]].concat());
    let expected = [
        format!("{}: a draft, as a killed run leaves it; it may be removed once no run saves here", path(&draft)),
        format!("{ten}: fits its tally, 5 by 4, step 10"),
        format!("{twenty}: no tally, 5 by 4, step 20"),
        format!("{thirty}.tally: WRONG: there is no checkpoint {thirty}"),
        format!("{}: WRONG: refused with number 13: the file's version is not 1", path(&flow)),
        "4 checked: 1 fits its tally, 1 has none, 2 are wrong".to_string(),
    ];
    assert_eq!(said.lines().collect::<Vec<_>>(), expected);
    assert_eq!((status, &rest[..]), (Some(1), "brothwagon: 2 of 4 are wrong\n"));
}

#[test]
fn a_state_that_does_not_fit_its_tally_is_named_with_the_planes() {
    let made = folder("misfit");
    let (one, other) = (format!("{made}/one"), format!("{made}/other"));
    let two = study("misfit", "sides 2 1\nviscosity 0.1\nsteps 5\n");
    for (planes, differ) in
        [(&[4][..], "plane 4 differs"), (&[3, 7], "planes 3 and 7 differ"), (&[0, 1, 8], "planes 0, 1 and 8 differ")]
    {
        let mut f = entries();
        planes.iter().for_each(|plane| f[2 * plane + 1] += 0.5);
        pair(&one, &entries());
        pair(&other, &f);
        fs::rename(path(&format!("{one}.tally")), path(&format!("{made}/swap"))).unwrap();
        fs::rename(path(&format!("{other}.tally")), path(&format!("{one}.tally"))).unwrap();
        fs::rename(path(&format!("{made}/swap")), path(&format!("{other}.tally"))).unwrap();
        for file in [&one, &other] {
            let (file, why) = (path(file), format!("the state does not fit {}.tally: {differ}", path(file)));
            assert_eq!(wrong(&file), format!("{file}: WRONG: {why}"));
            for words in [format!("show {file}"), format!("run {two} --from {file} --save {made}/end")] {
                assert_eq!(failed(&words), (Some(1), format!("brothwagon: {file}: {why}\n")));
            }
        }
    }
    assert_eq!(names(&made), ["one", "one.tally", "other", "other.tally"]);

    let all: Vec<f64> = entries().iter().map(|entry| entry + 0.5).collect();
    put(&format!("{one}.tally"), &tallies::file(&tallies::of(&all)));
    assert!(wrong(&one).ends_with("one.tally: all planes differ"));
}

#[test]
fn a_tally_that_is_refused_or_cannot_be_read_is_named() {
    let made = folder("bad-tally");
    let (file, tally) = (format!("{made}/state"), format!("{made}/state.tally"));
    pair(&file, &entries());
    let good = bytes(&tally);
    let other = |at: usize, byte: u8| [&good[..at], &[byte], &good[at + 1..]].concat();
    let long = [&good[..], &[0]].concat();
    let two = study("bad-tally", "sides 2 1\nviscosity 0.1\nsteps 5\n");
    let commands = [format!("show {file}"), format!("run {two} --from {file}"), format!("steady {two} --from {file}")];
    for (bytes, number) in [(good[..4].to_vec(), 12), (other(4, 2), 13), (other(3, 80), 15), (long, 15), (other(84, 0), 17)] {
        put(&tally, &bytes);
        for words in &commands {
            let (status, said) = failed(words);
            assert_eq!(status, Some(1), "{words}: {said}");
            assert!(said.starts_with(&format!("brothwagon: {}: refused with number {number}: ", path(&tally))), "{said}");
        }
        assert!(wrong(&file).starts_with(&format!("{}: WRONG: refused with number {number}: ", path(&tally))));
    }
    // Neither a file without end nor a folder holds a command up.
    fs::remove_file(path(&tally)).unwrap();
    symlink("/dev/zero", path(&tally)).unwrap();
    assert!(wrong(&file).contains("state.tally: WRONG: refused with number 13: "));
    fs::remove_file(path(&tally)).unwrap();
    fs::create_dir(path(&tally)).unwrap();
    assert!(wrong(&file).contains("state.tally: WRONG: Is a directory"));
    for words in &commands {
        let (status, said) = failed(words);
        assert_eq!(status, Some(2), "{words}: {said}");
        assert!(said.contains("state.tally: Is a directory"), "{said}");
    }
}

#[test]
fn show_says_whether_there_is_a_tally() {
    let made = folder("said");
    let file = format!("{made}/state");
    pair(&file, &entries());
    assert_eq!(value(&out(&format!("show {file}")), "tally"), "fits");
    fs::remove_file(path(&format!("{file}.tally"))).unwrap();
    assert_eq!(value(&out(&format!("show {file}")), "tally"), "none");
    let two = study("said", "sides 2 1\nviscosity 0.1\nsteps 5\n");
    let said = out(&format!("run {two} --from {file}"));
    assert_eq!((value(&said, "from tally"), value(&said, "to step")), ("none", "355"));
    // A name that leaves no room for .tally.
    let long = format!("{made}/{}", "a".repeat(250));
    put(&long, &document::checkpoint(2, 1, STEP, &entries()));
    assert_eq!(value(&out(&format!("show {long}")), "tally"), "none");
    let (status, said) = failed(&format!("run {two} --save {long}"));
    assert_eq!(status, Some(3));
    assert!(said.contains("a.tally: File name too long"), "{said}");
}

#[test]
fn a_ruined_state_fits_the_tally_that_was_stored_with_it() {
    let file = format!("{}/state", folder("stored-ruined"));
    pair(&file, &[f64::NAN; 18]);
    let (shown, _) = ruined(&format!("show {file}"));
    assert_eq!(value(&shown, "tally"), "fits");
    assert_eq!(check(&[file]).0, Some(0));
}

#[test]
fn a_name_with_a_step_must_be_right() {
    let made = folder("named");
    for name in ["step-0000000350.checkpoint", "post-step-350", "step-7-step-350.final", "end.checkpoint", "step-"] {
        pair(&format!("{made}/{name}"), &entries());
        assert_eq!(check(&[format!("{made}/{name}")]).0, Some(0), "{name}");
    }
    for (name, step) in
        [("step-0000000035.checkpoint", "0000000035"), ("step-350-step-351", "351"), ("step-4294967646", "4294967646")]
    {
        pair(&format!("{made}/{name}"), &entries());
        let said = wrong(&format!("{made}/{name}"));
        assert!(said.ends_with(&format!("{name}: WRONG: the name says step {step}, and the file step 350")), "{said}");
    }
}

#[test]
fn a_tallys_name_is_no_checkpoints() {
    let made = folder("tally-name");
    let file = format!("{made}/state");
    pair(&file, &entries());
    let two = study("tally-name", "sides 2 1\nviscosity 0.1\nsteps 5\n");
    for words in [format!("show {file}.tally"), format!("run {two} --from {file}.tally")] {
        let (status, said) = failed(&words);
        assert_eq!(status, Some(2));
        assert!(
            said.ends_with(&format!("state.tally: this is a tally's name; that of its checkpoint is {}\n", path(&file))),
            "{said}"
        );
    }
    let (status, said) = failed(&format!("run {two} --save {made}/end.tally"));
    assert_eq!(status, Some(2));
    assert!(said.contains("end.tally`: a tally's name ends in .tally"), "{said}");
    assert_eq!(names(&made), ["state", "state.tally"]);
}

#[test]
fn what_cannot_be_read_is_wrong_and_what_is_not_understood_is_said() {
    let made = folder("unread");
    assert!(wrong(&format!("{made}/missing")).ends_with("missing: WRONG: No such file or directory (os error 2)"));
    let (here, files) = (path(&made), path(&format!("{made}/*.checkpoint*")));
    assert_eq!(wrong(&made), format!("{here}: WRONG: it is a folder; {files} names its checkpoints"));
    assert_eq!(
        failed("check"),
        (Some(2), "brothwagon: check takes checkpoint files; brothwagon --help says more\n".to_string())
    );
    assert_eq!(failed("check --all").0, Some(2));
}

#[test]
fn a_link_is_held_to_the_step_of_the_file_that_it_leads_to() {
    let made = folder("latest");
    for (step, name) in [(STEP, "fits its tally"), (STEP + 1, "WRONG: the name says step 351, and the file step 350")] {
        let file = format!("{made}/step-{step}.checkpoint");
        pair(&file, &entries());
        let link = format!("{made}/latest-{step}");
        symlink(path(&file), path(&link)).unwrap();
        let (status, said, _) = check(std::slice::from_ref(&link));
        assert_eq!(status, Some(i32::from(step != STEP)), "{said}");
        assert!(said.starts_with(&format!("{}: {name}", path(&link))), "{said}");
    }
}

/// The end of a check of these files with its answer going there.
fn answering(files: &[&String], to: impl Into<Stdio>) -> (Option<i32>, String) {
    let mut command = Command::new(env!("CARGO_BIN_EXE_brothwagon"));
    let end = command.arg("check").args(files.iter().map(|file| path(file))).stdout(to).output().unwrap();
    (end.status.code(), String::from_utf8(end.stderr).unwrap())
}

#[test]
fn a_wrong_file_is_told_whatever_becomes_of_the_answer() {
    let made = folder("answer");
    let (good, bad) = (format!("{made}/good"), format!("{made}/bad"));
    pair(&good, &entries());
    let unread = || io::pipe().unwrap().1;
    let full = || File::create("/dev/full").unwrap();
    assert_eq!(answering(&[&good], unread()), (Some(0), String::new()));
    assert_eq!(answering(&[&good, &bad], unread()), (Some(1), "brothwagon: 1 of 2 is wrong\n".to_string()));
    let (status, said) = answering(&[&good], full());
    assert_eq!(status, Some(3), "{said}");
    let (status, said) = answering(&[&good, &bad], full());
    assert_eq!(status, Some(1), "{said}");
    assert!(said.starts_with("brothwagon: 1 of 2 is wrong; the answer cannot be written: "), "{said}");
}
