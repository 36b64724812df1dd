//! The levels of the processor that the library has, for programs that run on each in turn.

pub use brothwagon::level;
use std::env;

/// The variable of the environment by which a program that starts is told its level.
pub const VARIABLE: &str = "BROTHWAGON_LEVEL";

/// The levels of x86-64, from the lowest.
const LEVELS: [&str; 3] = ["x86-64", "x86-64-v3", "x86-64-v4"];

/// Every level up to the one in use, from the lowest; on Arm its one level.
pub fn levels() -> Vec<&'static str> {
    match LEVELS.iter().position(|&name| name == level()) {
        Some(highest) => LEVELS[..=highest].to_vec(),
        None => vec![level()],
    }
}

/// Whether the level in use is the one that the environment asks for, where the library looks at it.
pub fn as_asked() -> bool {
    let asked = env::var(VARIABLE).unwrap_or_default();
    asked.is_empty() || asked == level() || !LEVELS.contains(&level())
}
