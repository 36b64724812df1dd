//! The command `brothwagon`: runs a study file on the proved library.

mod answer;
mod check;
mod failure;
mod judged;
mod names;
mod options;
mod pair;
mod progress;
mod read;
mod run;
mod saves;
mod show;
mod start;
mod steady;
mod whole;

use answer::line;
use brothwagon::{Lossless, Study, level};
use check::check;
use failure::Failure;
use options::{Command, Options};
use run::run;
use show::show;
use start::Start;
use std::env;
use std::ffi::OsString;
use std::io::{Write, stderr, stdout};
use std::process::ExitCode;
use steady::steady;

const HELP: &str = include_str!("help.txt");

fn main() -> ExitCode {
    let mut out = stdout().lock();
    match words().and_then(|words| command(&words, &mut out)).and_then(|()| Ok(out.flush()?)) {
        Ok(()) => ExitCode::SUCCESS,
        Err(failure) if failure.unread() => ExitCode::SUCCESS,
        Err(failure) => {
            // Where there is no one to tell, the status still does.
            let _ = writeln!(stderr(), "brothwagon: {failure}");
            ExitCode::from(failure.status())
        }
    }
}

/// The command's words.
fn words() -> Result<Vec<String>, Failure> {
    let word = |word: OsString| word.into_string().map_err(|word| Failure::Unreadable(format!("{word:?} is not in UTF-8")));
    env::args_os().skip(1).map(word).collect()
}

fn command(words: &[String], out: &mut impl Write) -> Result<(), Failure> {
    let words: Vec<&str> = words.iter().map(String::as_str).collect();
    match words[..] {
        [] | ["help"] => help(out),
        _ if words.contains(&"--help") || words.contains(&"-h") => help(out),
        ["run", ref words @ ..] => start(Command::Run, words, out),
        ["steady", ref words @ ..] => start(Command::Steady, words, out),
        ["show", ref words @ ..] => show(words, out),
        ["check", ref words @ ..] => check(words, out),
        ["lossless", path] => lossless(path, out),
        ["version" | "--version" | "-V"] => version(out),
        _ => Err(Failure::Unreadable(format!("`{}` is not understood; brothwagon --help lists the commands", words.join(" ")))),
    }
}

/// Runs a study. What is refused is said with its path.
fn start(command: Command, words: &[&str], out: &mut impl Write) -> Result<(), Failure> {
    let options = Options::read(command, words)?;
    let start = Start::of(&options)?;
    let end = match command {
        Command::Run => run(&options, start, out),
        Command::Steady => steady(&options, start, out),
    };
    end.map_err(|failure| failure.about(&options.study))
}

fn help(out: &mut impl Write) -> Result<(), Failure> {
    Ok(write!(out, "{HELP}")?)
}

fn lossless(path: &str, out: &mut impl Write) -> Result<(), Failure> {
    let answer = read::study(path).and_then(|file| Ok(Study::new(file.settings)?.lossless()?));
    match answer.map_err(|failure| failure.about(path))? {
        Lossless::Lossless => writeln!(out, "lossless")?,
        Lossless::Lossy { x, y, direction } => writeln!(out, "lossy {x} {y} {direction}")?,
    }
    Ok(())
}

fn version(out: &mut impl Write) -> Result<(), Failure> {
    writeln!(out, "brothwagon {}", env!("CARGO_PKG_VERSION"))?;
    Ok(line(out, "level", level())?)
}
