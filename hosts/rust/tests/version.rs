//! The version, and the level that the library takes.

use std::process::Command;

/// What `brothwagon version` prints, and says on standard error, where BROTHWAGON_LEVEL is this word.
fn version(word: &str) -> (String, String) {
    let end = Command::new(env!("CARGO_BIN_EXE_brothwagon")).arg("version").env("BROTHWAGON_LEVEL", word).output().unwrap();
    assert!(end.status.success());
    (String::from_utf8(end.stdout).unwrap(), String::from_utf8(end.stderr).unwrap())
}

fn on(level: &str) -> String {
    format!("brothwagon {}\n  level             {level}\n", env!("CARGO_PKG_VERSION"))
}

#[cfg(target_arch = "x86_64")]
#[test]
fn a_lower_level_may_be_asked_for() {
    assert_eq!(version("x86-64"), (on("x86-64"), String::new()));
}

#[cfg(target_arch = "x86_64")]
#[test]
fn another_word_is_said_and_the_best_is_taken() {
    let (best, said) = version("");
    assert_eq!(said, "");
    let (taken, said) = version("fastest");
    assert_eq!(taken, best);
    assert!(said.starts_with("brothwagon: BROTHWAGON_LEVEL is fastest, which is none of x86-64, "), "{said}");
}

#[cfg(target_arch = "aarch64")]
#[test]
fn arm_has_one_level() {
    assert_eq!(version("x86-64"), (on("aarch64"), String::new()));
}
