//! `mirror-volume`: makes, surveys, mends, reads and writes a disk that the
//! verified mirror keeps in three files. FORMAT.md says what they hold.

mod advice;
mod args;
mod checks;
mod create;
mod disk;
mod failure;
mod files;
mod help;
mod json;
mod key;
mod mend;
mod output;
mod picture;
mod progress;
mod read;
mod replace;
mod runs;
mod shape;
mod size;
mod status;
mod superblock;
mod survey;
mod svg;
mod window;
mod write;

use std::ffi::OsString;
use std::process::ExitCode;

use args::{Accepted, Arguments};
use failure::{note, Failure};
use output::Outcome;

/// A command: its name, what it takes, and what does it.
struct Command {
    name: &'static str,
    accepted: &'static Accepted,
    run: fn(&Arguments) -> Result<Outcome, Failure>,
}

const COMMANDS: [Command; 6] = [
    Command {
        name: "create",
        accepted: &create::ACCEPTED,
        run: create::run,
    },
    Command {
        name: "status",
        accepted: &status::ACCEPTED,
        run: status::run,
    },
    Command {
        name: "mend",
        accepted: &mend::ACCEPTED,
        run: mend::run,
    },
    Command {
        name: "read",
        accepted: &read::ACCEPTED,
        run: read::run,
    },
    Command {
        name: "write",
        accepted: &write::ACCEPTED,
        run: write::run,
    },
    Command {
        name: "replace",
        accepted: &replace::ACCEPTED,
        run: replace::run,
    },
];

fn main() -> ExitCode {
    let words: Vec<OsString> = std::env::args_os().skip(1).collect();
    match run(words) {
        Ok(outcome) => ExitCode::from(outcome as u8),
        Err(failure) => {
            note(&failure.to_string());
            ExitCode::from(output::COULD_NOT)
        }
    }
}

fn run(mut words: Vec<OsString>) -> Result<Outcome, Failure> {
    let first = words
        .first()
        .map(|word| word.to_string_lossy().into_owned());
    let first = first.unwrap_or_default();
    let asks = |name: &str| words.iter().any(|word| word == name);
    if asks("--help") || asks("-h") || first == "help" {
        output::print(help::of(&first))?;
        return Ok(Outcome::Whole);
    }
    if first == "--version" {
        output::print(&version())?;
        return Ok(Outcome::Whole);
    }
    let Some(command) = COMMANDS.iter().find(|command| command.name == first) else {
        let what_is_wrong = match words.is_empty() {
            true => "no command is given".to_string(),
            false => format!("{first:?} is no command"),
        };
        return Err(Failure::new(what_is_wrong, "see `mirror-volume --help`"));
    };
    let arguments = Arguments::parse(words.split_off(1), command.accepted)?;
    check_library()?;
    (command.run)(&arguments)
}

fn version() -> String {
    format!(
        "mirror-volume {}, with libmirror {}\n",
        env!("CARGO_PKG_VERSION"),
        release(mirror::version())
    )
}

/// Calls and library have to be of one release.
fn check_library() -> Result<(), Failure> {
    let (linked, due) = (mirror::version(), mirror::VERSION);
    match linked == due {
        true => Ok(()),
        false => Err(Failure::new(
            format!("it was linked with libmirror {}", release(linked)),
            format!("build it with libmirror {}", release(due)),
        )),
    }
}

fn release(number: u32) -> String {
    let (major, minor, patch) = (number / 1_000_000, number / 1_000 % 1_000, number % 1_000);
    format!("{major}.{minor}.{patch}")
}
