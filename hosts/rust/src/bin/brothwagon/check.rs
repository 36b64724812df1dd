//! `brothwagon check`: whether checkpoints are what their tallies and their names say.

use crate::failure::Failure;
use crate::names;
use crate::pair::{Fault, Pair};
use crate::progress::Checking;
use crate::whole;
use std::collections::HashSet;
use std::fmt;
use std::fs;
use std::io::{self, Write};
use std::path::Path;

/// Says of each checkpoint whether it is wrong, and fails if one is, whatever became of the answer.
pub fn check(words: &[&str], out: &mut impl Write) -> Result<(), Failure> {
    let (drafts, checkpoints) = named(words)?;
    let draft = "a draft, as a killed run leaves it; it may be removed once no run saves here";
    let mut told = drafts.iter().try_for_each(|path| writeln!(out, "{path}: {draft}"));
    let mut progress = Checking::of(checkpoints.len());
    let mut counts = Counts::default();
    for path in checkpoints {
        progress.show();
        let checked = checked(Path::new(path));
        progress.add(fs::metadata(path).map_or(0, |file| file.len()));
        counts.add(&checked);
        told = told.and_then(|()| tell(out, path, &checked));
    }
    drop(progress);
    told = told.and_then(|()| writeln!(out, "{counts}"));
    counts.judged(told.map_err(Failure::from))
}

/// The drafts among the words, and the checkpoints, each once.
fn named<'a>(words: &[&'a str]) -> Result<(Vec<&'a str>, Vec<&'a str>), Failure> {
    if let Some(option) = words.iter().find(|word| word.starts_with('-')) {
        return Err(Failure::Unreadable(format!("check has no option `{option}`; brothwagon --help says more")));
    }
    if words.is_empty() {
        return Err(Failure::Unreadable("check takes checkpoint files; brothwagon --help says more".to_string()));
    }
    let (drafts, others): (Vec<&str>, Vec<&str>) = words.iter().partition(|word| names::is_draft(Path::new(word)));
    let mut seen = HashSet::new();
    let checkpoints = others.into_iter().map(|name| names::tallied(name).unwrap_or(name));
    Ok((drafts, checkpoints.filter(|path| seen.insert(*path)).collect()))
}

/// Reads a checkpoint with its tally, and holds it to its name.
fn checked(path: &Path) -> Result<Pair, Fault> {
    if path.is_dir() {
        let files = format!("it is a folder; {} names its checkpoints", path.join("*.checkpoint*").display());
        return Err(Fault::of(path, Failure::Unreadable(files)));
    }
    let tally = names::tally_of(path);
    if !path.exists() && tally.exists() {
        return Err(Fault::of(&tally, Failure::Unreadable(format!("there is no checkpoint {}", path.display()))));
    }
    let pair = Pair::read(path)?;
    let step = pair.checkpoint.step();
    match names::step_in(&whole::behind(path)) {
        Some(digits) if digits.parse() != Ok(step) => {
            Err(Fault::of(path, Failure::Refused(format!("the name says step {digits}, and the file step {step}"))))
        }
        _ => Ok(pair),
    }
}

fn tell(out: &mut impl Write, path: &str, checked: &Result<Pair, Fault>) -> io::Result<()> {
    match checked {
        Ok(Pair { checkpoint, tally }) => {
            let ((nx, ny), step) = (checkpoint.sides(), checkpoint.step());
            let tally = if tally.is_some() { "fits its tally" } else { "no tally" };
            writeln!(out, "{path}: {tally}, {nx} by {ny}, step {step}")
        }
        Err(Fault { file, why }) => writeln!(out, "{}: WRONG: {why}", file.display()),
    }
}

/// How many checkpoints there are of each sort.
#[derive(Default)]
struct Counts {
    fit: usize,
    untallied: usize,
    wrong: usize,
}

impl Counts {
    fn add(&mut self, checked: &Result<Pair, Fault>) {
        *match checked {
            Ok(Pair { tally: Some(_), .. }) => &mut self.fit,
            Ok(Pair { tally: None, .. }) => &mut self.untallied,
            Err(_) => &mut self.wrong,
        } += 1;
    }

    fn all(&self) -> usize {
        self.fit + self.untallied + self.wrong
    }

    fn judged(&self, told: Result<(), Failure>) -> Result<(), Failure> {
        let are = if self.wrong == 1 { "is" } else { "are" };
        match self.wrong {
            0 => told,
            wrong => Err(Failure::Refused(format!("{wrong} of {} {are} wrong", self.all())).beside(told)),
        }
    }
}

impl fmt::Display for Counts {
    fn fmt(&self, out: &mut fmt::Formatter) -> fmt::Result {
        let fit = counted(self.fit, "fits its tally", "fit their tallies");
        let untallied = counted(self.untallied, "has none", "have none");
        let wrong = counted(self.wrong, "is wrong", "are wrong");
        write!(out, "{} checked: {fit}, {untallied}, {wrong}", self.all())
    }
}

fn counted(count: usize, one: &str, many: &str) -> String {
    format!("{count} {}", if count == 1 { one } else { many })
}
