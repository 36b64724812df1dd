//! The words after `run`, `steady` and `show`.

use crate::failure::Failure;
use crate::names;
use brothwagon::{FLOOR, StudyFile};
use std::fmt;
use std::path::Path;

/// The commands that run a study.
#[derive(Clone, Copy, Debug, Default, PartialEq)]
pub enum Command {
    #[default]
    Run,
    Steady,
}

impl fmt::Display for Command {
    fn fmt(&self, out: &mut fmt::Formatter) -> fmt::Result {
        out.write_str(match self {
            Command::Run => "run",
            Command::Steady => "steady",
        })
    }
}

/// What a run is asked for. A steady run has no steps of its own, nor checkpoints along the way.
#[derive(Debug, Default, PartialEq)]
pub struct Options {
    pub study: String,
    /// In place of the study's steps.
    pub steps: Option<u64>,
    /// The checkpoint to start from.
    pub from: Option<String>,
    /// Where the end is saved.
    pub save: Option<String>,
    pub every: Option<Every>,
}

/// Checkpoints along the way: at which multiples, and into which folder.
#[derive(Debug, PartialEq)]
pub struct Every {
    pub steps: u64,
    pub into: String,
}

/// What has been read so far.
#[derive(Default)]
struct Draft<'a> {
    command: Command,
    study: Option<&'a str>,
    steps: Option<&'a str>,
    from: Option<&'a str>,
    save: Option<&'a str>,
    every: Option<&'a str>,
    into: Option<&'a str>,
}

impl Options {
    /// Reads the words after that command.
    pub fn read(command: Command, words: &[&str]) -> Result<Options, Failure> {
        let mut draft = Draft { command, ..Draft::default() };
        let mut words = words.iter().copied();
        while let Some(word) = words.next() {
            draft.take(word, &mut words).map_err(Failure::Unreadable)?;
        }
        draft.finish().map_err(Failure::Unreadable)
    }
}

impl<'a> Draft<'a> {
    fn take(&mut self, word: &'a str, after: &mut impl Iterator<Item = &'a str>) -> Result<(), String> {
        let (kept, takes) = match (self.command, word) {
            (_, "--from") => (&mut self.from, "a checkpoint file"),
            (_, "--save") => (&mut self.save, "a file"),
            (Command::Run, "--steps") => (&mut self.steps, "a whole number"),
            (Command::Run, "--every") => (&mut self.every, "a whole number, at least 1"),
            (Command::Run, "--into") => (&mut self.into, "a folder"),
            (command, _) if word.starts_with('-') => return Err(no_option(command, word)),
            (command, _) => return only(&mut self.study, word, format_args!("{command} takes one study")),
        };
        once(kept, word, takes, after)
    }

    fn finish(self) -> Result<Options, String> {
        let every = match (self.every, self.into) {
            (Some(steps), Some(into)) => Some(Every { steps: at_least_one(steps)?, into: into.to_string() }),
            (Some(_), None) => return Err("--every asks for --into FOLDER".to_string()),
            (None, Some(_)) => return Err("--into asks for --every N".to_string()),
            (None, None) => None,
        };
        if let Some(save) = self.save {
            self.test_save(save)?;
        }
        let study = self.study.ok_or_else(|| format!("{} takes a study; brothwagon --help says more", self.command))?;
        let steps = |word: &str| word.parse().map_err(|_| format!("--steps takes a whole number, not `{word}`"));
        Ok(Options {
            study: study.to_string(),
            steps: self.steps.map(steps).transpose()?,
            from: self.from.map(str::to_string),
            save: self.save.map(str::to_string),
            every,
        })
    }

    /// Whether the end can have this name: neither the checkpoint nor its tally may replace the study.
    fn test_save(&self, save: &str) -> Result<(), String> {
        if names::tallied(save).is_some() {
            return Err(format!("--save takes a checkpoint's name, not `{save}`: a tally's name ends in .tally"));
        }
        let names = [Path::new(save), &names::tally_of(Path::new(save))];
        match self.study {
            Some(study) if names.contains(&Path::new(study)) => Err("--save would replace the study".to_string()),
            _ => Ok(()),
        }
    }
}

/// What `show` is asked for.
pub struct Shown<'a> {
    pub file: &'a str,
    /// The floor of the checkpoint's study, which the file does not hold: as the word that was given, and as a number.
    pub given: Option<&'a str>,
    pub floor: f64,
}

impl<'a> Shown<'a> {
    /// Reads the words after `show`.
    pub fn read(words: &[&'a str]) -> Result<Shown<'a>, Failure> {
        Shown::taken(words.iter().copied()).map_err(Failure::Unreadable)
    }

    fn taken(mut words: impl Iterator<Item = &'a str>) -> Result<Shown<'a>, String> {
        let (mut file, mut floor) = (None, None);
        while let Some(word) = words.next() {
            match word {
                "--floor" => once(&mut floor, word, "a number", &mut words)?,
                _ if word.starts_with('-') => return Err(no_option("show", word)),
                _ => only(&mut file, word, "show takes one checkpoint file")?,
            }
        }
        let file = file.ok_or("show takes a checkpoint file; brothwagon --help says more")?;
        let read = |word: &str| StudyFile::number(word).ok_or_else(|| format!("--floor takes a number, not `{word}`"));
        Ok(Shown { file, given: floor, floor: floor.map_or(Ok(FLOOR), read)? })
    }
}

fn no_option(command: impl fmt::Display, word: &str) -> String {
    format!("{command} has no option `{word}`; brothwagon --help lists them")
}

/// Keeps the word that is no option, of which there is one.
fn only<'a>(kept: &mut Option<&'a str>, word: &'a str, one: impl fmt::Display) -> Result<(), String> {
    match kept.replace(word) {
        Some(other) => Err(format!("{one}, not both `{other}` and `{word}`")),
        None => Ok(()),
    }
}

/// Keeps what follows an option, once.
fn once<'a>(
    kept: &mut Option<&'a str>,
    option: &str,
    takes: &str,
    after: &mut impl Iterator<Item = &'a str>,
) -> Result<(), String> {
    if kept.is_some() {
        return Err(format!("{option} is given twice"));
    }
    match after.next() {
        Some(value) if !value.starts_with("--") => *kept = Some(value),
        Some(value) => return Err(format!("{option} takes {takes}, not `{value}`")),
        None => return Err(format!("{option} takes {takes}, and nothing follows it")),
    }
    Ok(())
}

fn at_least_one(word: &str) -> Result<u64, String> {
    match word.parse() {
        Ok(steps) if steps > 0 => Ok(steps),
        _ => Err(format!("--every takes a whole number, at least 1, not `{word}`")),
    }
}

#[cfg(test)]
mod tests {
    use super::*;

    fn wrong(words: &str) -> String {
        let words: Vec<&str> = words.split_whitespace().collect();
        match Options::read(Command::Run, &words) {
            Err(Failure::Unreadable(why)) => why,
            other => panic!("{:?}", other.ok()),
        }
    }

    #[test]
    fn options_may_come_in_any_order() {
        let mut words = [["--steps", "5"], ["--from", "a"], ["--save", "b"], ["--every", "2"], ["--into", "c"]];
        for _ in 0..words.len() {
            words.rotate_left(1);
            for at in 0..=words.len() {
                let said = [words[..at].concat(), vec!["my.study"], words[at..].concat()].concat();
                let expected = Options {
                    study: "my.study".to_string(),
                    steps: Some(5),
                    from: Some("a".to_string()),
                    save: Some("b".to_string()),
                    every: Some(Every { steps: 2, into: "c".to_string() }),
                };
                assert_eq!(Options::read(Command::Run, &said).ok(), Some(expected), "{said:?}");
            }
        }
        let alone = Options { study: "my.study".to_string(), ..Options::default() };
        assert_eq!(Options::read(Command::Steady, &["my.study"]).ok(), Some(alone));
    }

    #[test]
    fn a_steady_run_has_fewer() {
        let words = ["--save", "b", "my.study", "--from", "a"];
        let expected = Options {
            study: "my.study".to_string(),
            from: Some("a".to_string()),
            save: Some("b".to_string()),
            ..Options::default()
        };
        assert_eq!(Options::read(Command::Steady, &words).ok(), Some(expected));
        for word in ["--steps", "--every", "--into"] {
            assert!(Options::read(Command::Steady, &["my.study", word, "1"]).is_err());
        }
    }

    #[test]
    fn each_wrong_word_is_named() {
        assert_eq!(wrong(""), "run takes a study; brothwagon --help says more");
        assert_eq!(wrong("--steps 5"), "run takes a study; brothwagon --help says more");
        assert_eq!(wrong("a b"), "run takes one study, not both `a` and `b`");
        assert_eq!(wrong("a --step 5"), "run has no option `--step`; brothwagon --help lists them");
        assert_eq!(wrong("a --steps=5"), "run has no option `--steps=5`; brothwagon --help lists them");
        assert_eq!(wrong("a --save b --save b"), "--save is given twice");
        assert_eq!(wrong("a --save"), "--save takes a file, and nothing follows it");
        assert_eq!(wrong("--from --save b a"), "--from takes a checkpoint file, not `--save`");
        assert_eq!(wrong("a --steps -1"), "--steps takes a whole number, not `-1`");
        assert_eq!(wrong("a --every 0 --into b"), "--every takes a whole number, at least 1, not `0`");
        assert_eq!(wrong("a --save a"), "--save would replace the study");
        assert_eq!(wrong("a.tally --save a"), "--save would replace the study");
        assert_eq!(wrong("a --save b.tally"), "--save takes a checkpoint's name, not `b.tally`: a tally's name ends in .tally");
        assert_eq!(wrong("a --every 1"), "--every asks for --into FOLDER");
        assert_eq!(wrong("a --into b"), "--into asks for --every N");
    }

    fn shown(words: &str) -> Result<(&str, f64), String> {
        Shown::taken(words.split_whitespace()).map(|shown| (shown.file, shown.floor))
    }

    #[test]
    fn show_takes_a_file_and_its_studys_floor() {
        assert_eq!(shown("a"), Ok(("a", 1e-12)));
        assert_eq!(shown("a --floor 1e-20"), Ok(("a", 1e-20)));
        assert_eq!(shown("--floor 1/8 a"), Ok(("a", 0.125)));
        // Whether it can be one is the library's to say.
        assert_eq!(shown("a --floor -1"), Ok(("a", -1.0)));
    }

    #[test]
    fn each_wrong_word_of_show_is_named() {
        let wrong = |words| shown(words).unwrap_err();
        assert_eq!(wrong(""), "show takes a checkpoint file; brothwagon --help says more");
        assert_eq!(wrong("--floor 1"), "show takes a checkpoint file; brothwagon --help says more");
        assert_eq!(wrong("a b"), "show takes one checkpoint file, not both `a` and `b`");
        assert_eq!(wrong("a --from b"), "show has no option `--from`; brothwagon --help lists them");
        assert_eq!(wrong("a --floor 1 --floor 1"), "--floor is given twice");
        assert_eq!(wrong("a --floor"), "--floor takes a number, and nothing follows it");
        assert_eq!(wrong("--floor --floor a"), "--floor takes a number, not `--floor`");
        assert_eq!(wrong("a --floor low"), "--floor takes a number, not `low`");
    }
}
