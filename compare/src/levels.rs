//! The comparison on each level of the processor, one process for each: the library takes its level as a program starts.

use source::levels::{VARIABLE, levels};
use std::env;
use std::io;
use std::process::{Child, Command, ExitCode, Output, Stdio};

/// Runs this program with these words on every level up to its own, all at once, and prints what each printed, from the lowest
/// level on, until one that failed.
pub fn each(words: &[&str]) -> ExitCode {
    let levels = levels();
    let runs: Vec<io::Result<Child>> = levels.iter().map(|level| start(words, level)).collect();
    for (level, run) in levels.iter().zip(runs) {
        match run.and_then(Child::wait_with_output) {
            Ok(Output { status, stdout, .. }) => {
                print!("{}", String::from_utf8_lossy(&stdout));
                if !status.success() {
                    return ExitCode::from(status.code().and_then(|code| code.try_into().ok()).unwrap_or(1));
                }
            }
            Err(why) => {
                println!("compare: cannot run on {level}: {why}");
                return ExitCode::FAILURE;
            }
        }
    }
    println!("compare: alike on every level that this machine has: {}", levels.join(", "));
    ExitCode::SUCCESS
}

fn start(words: &[&str], level: &str) -> io::Result<Child> {
    let this = env::current_exe()?;
    Command::new(this).args(words).env(VARIABLE, level).stdout(Stdio::piped()).spawn()
}
