//! Links the proved library: target/library of the repository, or the folder that BROTHWAGON_LIBRARY names.

use std::env;
use std::path::{Path, PathBuf};

fn main() {
    let folder = env::var_os("BROTHWAGON_LIBRARY")
        .map_or_else(|| Path::new(env!("CARGO_MANIFEST_DIR")).join("../../target/library"), PathBuf::from);
    let archive = folder.join("libbrothwagon.a");
    println!("cargo::rerun-if-env-changed=BROTHWAGON_LIBRARY");
    println!("cargo::rerun-if-changed={}", archive.display());
    if !archive.exists() {
        println!(
            "cargo::error=no {}: run tools/library at the root of the repository, \
             or name the folder that has libbrothwagon.a in BROTHWAGON_LIBRARY",
            archive.display()
        );
    }
    println!("cargo::rustc-link-search=native={}", folder.display());
    println!("cargo::rustc-link-lib=static=brothwagon");
}
