//! Standard output, and the exit status.

use std::io::{self, Write};

use crate::failure::{note, Failure};

/// What a command that was done has found. The worst decides.
#[derive(Clone, Copy, Debug, PartialEq, Eq, PartialOrd, Ord)]
pub enum Outcome {
    /// All that was looked at is whole, or done.
    Whole = 0,
    /// There are doubtful sectors; their data is there.
    Doubtful = 1,
    /// There are lost or clashing sectors.
    Damaged = 2,
}

/// The exit status of a command that could not be done.
pub const COULD_NOT: u8 = 3;

/// Prints a text.
pub fn print(text: &str) -> Result<(), Failure> {
    put(text.as_bytes())
}

/// Prints what a command has done to the disk. It is done, whether that can be told
/// or not.
pub fn report(text: &str) {
    if let Err(failure) = print(text) {
        note(&format!("it was done, but {failure}"));
    }
}

/// Writes bytes. Where nobody reads on, that is a failure and no panic.
pub fn put(bytes: &[u8]) -> Result<(), Failure> {
    let mut output = io::stdout().lock();
    let written = output.write_all(bytes).and_then(|()| output.flush());
    written.map_err(|error| {
        let what_is_wrong = format!("writing to standard output failed: {error}");
        Failure::new(what_is_wrong, "see that its reader takes all of it")
    })
}
