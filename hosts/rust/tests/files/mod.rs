//! The files that tests make and find.

use crate::asked::path;
use std::fs;

/// An empty folder for a test.
pub fn folder(name: &str) -> String {
    let made = format!("MADE/{name}");
    let _ = fs::remove_dir_all(path(&made));
    fs::create_dir(path(&made)).unwrap();
    made
}

pub fn bytes(file: &str) -> Vec<u8> {
    fs::read(path(file)).unwrap()
}

pub fn put(file: &str, bytes: &[u8]) {
    fs::write(path(file), bytes).unwrap();
}

/// What stands in a folder, in the order of the names.
pub fn names(folder: &str) -> Vec<String> {
    let name = |entry: std::io::Result<fs::DirEntry>| entry.unwrap().file_name().into_string().unwrap();
    let mut names: Vec<String> = fs::read_dir(path(folder)).unwrap().map(name).collect();
    names.sort();
    names
}
