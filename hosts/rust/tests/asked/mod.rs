//! The command, asked by tests.

use std::fs;
use std::process::{Command, Output};

/// A path, with STUDIES for the folder of the studies and MADE for that of the files which a test makes.
pub fn path(word: &str) -> String {
    let studies = concat!(env!("CARGO_MANIFEST_DIR"), "/../../studies/");
    word.replace("STUDIES/", studies).replace("MADE/", concat!(env!("CARGO_TARGET_TMPDIR"), "/"))
}

/// Makes a study file for a test.
pub fn study(name: &str, text: &str) -> String {
    let made = format!("MADE/{name}.study");
    fs::write(path(&made), text).unwrap();
    made
}

/// The command's end on these words.
pub fn brothwagon(words: &str) -> Output {
    Command::new(env!("CARGO_BIN_EXE_brothwagon")).args(words.split(' ').map(path)).output().unwrap()
}

pub fn out(words: &str) -> String {
    let end = brothwagon(words);
    assert!(end.status.success(), "{}", String::from_utf8_lossy(&end.stderr));
    String::from_utf8(end.stdout).unwrap()
}

/// The exit status and what was said about it.
pub fn failed(words: &str) -> (Option<i32>, String) {
    let end = brothwagon(words);
    assert!(end.stdout.is_empty());
    (end.status.code(), String::from_utf8(end.stderr).unwrap())
}

/// The answer about a ruined state, and what was said about it.
pub fn ruined(words: &str) -> (String, String) {
    let end = brothwagon(words);
    assert_eq!(end.status.code(), Some(4));
    (String::from_utf8(end.stdout).unwrap(), String::from_utf8(end.stderr).unwrap())
}

/// The value of a line of an answer.
pub fn value<'a>(said: &'a str, name: &str) -> &'a str {
    said.lines().find_map(|line| line.trim_start().strip_prefix(name)).unwrap().trim_start()
}
