//! The names of the files that the command saves, and what a name says.

use std::path::{Path, PathBuf};
use std::process;

const STEP: &str = "step-";

/// The name of a checkpoint's tally.
pub fn tally_of(checkpoint: &Path) -> PathBuf {
    checkpoint.with_added_extension("tally")
}

/// The checkpoint that a file of this name is the tally of, if it is a tally's name.
pub fn tallied(name: &str) -> Option<&str> {
    name.strip_suffix(".tally")
}

/// The name of a checkpoint along the way.
pub fn along(step: u64) -> String {
    format!("{STEP}{step:010}.checkpoint")
}

/// The digits of the step number in a file's name, if it has one: those behind the last `step-` that has any.
pub fn step_in(path: &Path) -> Option<&str> {
    let name = path.file_name()?.to_str()?;
    let digits = |(at, step): (usize, &str)| name[at + step.len()..].split(|c: char| !c.is_ascii_digit()).next();
    name.rmatch_indices(STEP).filter_map(digits).find(|digits| !digits.is_empty())
}

/// The name of a file that is not yet whole, this process's own; the number tells it from others.
pub fn draft(number: u32) -> String {
    format!("brothwagon-{}-{number}.unfinished", process::id())
}

pub fn is_draft(path: &Path) -> bool {
    let name = path.file_name().unwrap_or_default().to_string_lossy();
    name.starts_with("brothwagon-") && name.ends_with(".unfinished")
}

#[cfg(test)]
mod tests {
    use super::*;

    #[test]
    fn a_name_says_its_step() {
        let step = |path: &'static str| step_in(Path::new(path));
        assert_eq!(step("step-0000000350.checkpoint"), Some("0000000350"));
        assert_eq!(step("step-5/post-step-0070-final"), Some("0070"));
        assert_eq!(step("step-7-step-12step-x"), Some("12"));
        assert_eq!(step("step-5/end.checkpoint"), None);
        assert_eq!(step("step-"), None);
        assert_eq!(step_in(Path::new(&along(7))), Some("0000000007"));
    }

    #[test]
    fn tallies_and_drafts_are_known_by_their_names() {
        let tally = tally_of(Path::new("a/step-5.checkpoint"));
        assert_eq!(tally, Path::new("a/step-5.checkpoint.tally"));
        assert_eq!(tallied(tally.to_str().unwrap()), Some("a/step-5.checkpoint"));
        assert_eq!(tallied("a.tally/end"), None);
        assert!(is_draft(&Path::new("a").join(draft(3))));
        assert!(!is_draft(Path::new("brothwagon-5-0.unfinished/end")) && !is_draft(Path::new("a.unfinished")));
    }
}
