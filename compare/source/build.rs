//! Copies the Rust's files to the build folder, as modules of this crate. BROTHWAGON_SOURCE is the folder with its
//! crates/phyz-lbm/src; shared/docs/src beside the repository by default.
//!
//! `d2q9` is the file unchanged, with the access block of vectors/ appended. `varied` is the same with two numbers that can be
//! given: the minus rate, put in where `collide_trt` works it out, and the floor, a field of the solver that both density tests
//! read where the file has 1e-12.

use std::env;
use std::fs;
use std::path::{Path, PathBuf};

/// What is another in `varied`, and in how many places of the file: the rate, both density tests, and the solver's fields.
const CHANGES: [(&str, usize, &str); 4] = [
    ("trt_omega_minus(omega_p, magic)", 1, "magic"),
    ("1e-12", 2, "self.floor"),
    ("pub boundaries: Boundaries<2>,", 1, "pub boundaries: Boundaries<2>, pub floor: f64,"),
    ("boundaries: Boundaries::periodic(),", 1, "boundaries: Boundaries::periodic(), floor: 1e-12,"),
];

fn main() {
    let root = Path::new(env!("CARGO_MANIFEST_DIR")).join("../..");
    let source = env::var_os("BROTHWAGON_SOURCE").map_or_else(|| root.join("../shared/docs/src"), PathBuf::from);
    let source = source.join("crates/phyz-lbm/src");
    println!("cargo::rerun-if-env-changed=BROTHWAGON_SOURCE");
    if !source.join("d2q9.rs").exists() {
        println!("cargo::error=no Rust at {}: name the folder with crates/phyz-lbm/src in BROTHWAGON_SOURCE", source.display());
        return;
    }

    let d2q9 = read(&source.join("d2q9.rs")) + &read(&root.join("vectors/access.rs"));
    let varied = CHANGES.into_iter().fold(d2q9.clone(), changed);
    let modules = [
        module("boundary", &read(&source.join("boundary.rs"))),
        module("collision", &read(&source.join("collision.rs"))),
        module("d2q9", &d2q9),
        module("varied", &varied),
    ];
    fs::write(built("modules"), modules.concat()).expect("the build folder can be written");
}

fn read(path: &Path) -> String {
    println!("cargo::rerun-if-changed={}", path.display());
    fs::read_to_string(path).unwrap_or_else(|why| panic!("{}: {why}", path.display()))
}

/// The text with one change made in all its places.
fn changed(text: String, (from, places, to): (&str, usize, &str)) -> String {
    assert_eq!(text.matches(from).count(), places, "places of {from:?} in d2q9.rs");
    text.replace(from, to)
}

fn built(name: &str) -> PathBuf {
    PathBuf::from(env::var_os("OUT_DIR").expect("cargo names the build folder")).join(name).with_extension("rs")
}

/// Writes a module's file, and gives the lines that declare it.
fn module(name: &str, text: &str) -> String {
    let path = built(name);
    fs::write(&path, text).expect("the build folder can be written");
    format!("#[allow(warnings, clippy::all)]\n#[path = {path:?}]\npub mod {name};\n")
}
