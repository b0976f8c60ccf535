//! Why a command could not be done.

use std::fmt;
use std::io::{self, Write};
use std::path::Path;

use mirror::Refusal;

/// What is wrong, and what to do: one line on standard error, exit status 3.
#[derive(Debug)]
pub struct Failure {
    what_is_wrong: String,
    what_to_do: String,
}

impl Failure {
    pub fn new(what_is_wrong: impl Into<String>, what_to_do: impl Into<String>) -> Failure {
        Failure {
            what_is_wrong: what_is_wrong.into(),
            what_to_do: what_to_do.into(),
        }
    }

    /// An error of the system with a file.
    pub fn of_file(doing: &str, path: &Path, error: &io::Error, what_to_do: &str) -> Failure {
        let what_is_wrong = format!("{doing} {} failed: {error}", path.display());
        Failure::new(what_is_wrong, what_to_do)
    }

    /// A write or a flush that failed: what has reached the medium is not known.
    pub fn of_writing(doing: &str, path: &Path, error: &io::Error) -> Failure {
        let what_to_do = "the disk is as after a power cut: see to the cause, \
                          then look at it with `mirror-volume status`";
        Failure::of_file(doing, path, error, what_to_do)
    }

    /// Files that could not be made, and are removed.
    pub fn of_making(cause: Failure) -> Failure {
        let what_to_do = "what was made is removed: see to the cause, and try again";
        Failure::new(cause.what_is_wrong, what_to_do)
    }
}

impl fmt::Display for Failure {
    fn fmt(&self, f: &mut fmt::Formatter<'_>) -> fmt::Result {
        write!(f, "{}: {}", self.what_is_wrong, self.what_to_do)
    }
}

/// A refusal that no right call of the library gives: lengths and numbers are
/// checked before.
impl From<Refusal> for Failure {
    fn from(refusal: Refusal) -> Failure {
        let what_is_wrong = format!("the library refuses a call, {refusal}");
        Failure::new(what_is_wrong, "report this as a fault of mirror-volume")
    }
}

/// Prints a line to standard error. Where that is closed nobody is there to be
/// told.
pub fn note(line: &str) {
    let _ = writeln!(io::stderr(), "mirror-volume: {line}");
}
