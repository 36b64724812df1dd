//! Why the command ended without an answer, or with one that nobody should take for good.

use brothwagon::{BadCell, Refusal};
use std::fmt;
use std::io::{self, ErrorKind};
use std::path::Path;

pub enum Failure {
    /// The command or a file is not understood.
    Unreadable(String),
    Refused(String),
    /// A checkpoint cannot be saved.
    Unsaved(String),
    /// The answer cannot be written.
    Unwritten(io::Error),
    /// A cell of the state has a density or a velocity component that is not finite.
    Ruined(String),
}

impl Failure {
    pub fn unreadable(why: impl fmt::Display) -> Failure {
        Failure::Unreadable(why.to_string())
    }

    pub fn unsaved(path: &Path, why: impl fmt::Display) -> Failure {
        Failure::Unsaved(format!("nothing can be saved as {}: {why}", path.display()))
    }

    pub fn ruined(why: impl fmt::Display, first: BadCell) -> Failure {
        Failure::Ruined(format!("{why}; the first such cell is {first}"))
    }

    /// A reader that has seen enough is no fault.
    pub fn unread(&self) -> bool {
        matches!(self, Failure::Unwritten(why) if why.kind() == ErrorKind::BrokenPipe)
    }

    /// This failure with the path of the file that it is about.
    pub fn about(self, path: impl fmt::Display) -> Failure {
        self.reworded(|why| format!("{path}: {why}"))
    }

    /// This failure, and beside it what kept its answer from being written.
    pub fn beside(self, told: Result<(), Failure>) -> Failure {
        match told {
            Err(failure) if !failure.unread() => self.reworded(|why| format!("{why}; {failure}")),
            _ => self,
        }
    }

    /// What is not read, refused or ruined, in other words; what is not saved or written names its file already, or has none.
    fn reworded(self, words: impl FnOnce(String) -> String) -> Failure {
        match self {
            Failure::Unreadable(why) => Failure::Unreadable(words(why)),
            Failure::Refused(why) => Failure::Refused(words(why)),
            Failure::Ruined(why) => Failure::Ruined(words(why)),
            other => other,
        }
    }

    pub fn status(&self) -> u8 {
        match self {
            Failure::Refused(_) => 1,
            Failure::Unreadable(_) => 2,
            Failure::Unsaved(_) | Failure::Unwritten(_) => 3,
            Failure::Ruined(_) => 4,
        }
    }
}

impl fmt::Display for Failure {
    fn fmt(&self, out: &mut fmt::Formatter) -> fmt::Result {
        match self {
            Failure::Unreadable(why) | Failure::Refused(why) | Failure::Unsaved(why) | Failure::Ruined(why) => {
                write!(out, "{why}")
            }
            Failure::Unwritten(why) => write!(out, "the answer cannot be written: {why}"),
        }
    }
}

impl From<Refusal> for Failure {
    fn from(refusal: Refusal) -> Failure {
        Failure::Refused(refusal.to_string())
    }
}

impl From<io::Error> for Failure {
    fn from(why: io::Error) -> Failure {
        Failure::Unwritten(why)
    }
}
