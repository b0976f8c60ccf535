//! `status`: surveys the disk, and says what to do.

use std::fmt::Write;

use crate::args::{Accepted, Arguments};
use crate::disk::Disk;
use crate::failure::Failure;
use crate::files::Access;
use crate::output::{self, Outcome};
use crate::size::{grouped, readable};
use crate::superblock::Superblock;
use crate::survey::{survey, Report};
use crate::{advice, json, picture, svg};

pub const ACCEPTED: Accepted = Accepted {
    parameters: &["local", "tags", "remote", "key"],
    with_value: &["--svg"],
    flags: &["--json"],
};

pub fn run(arguments: &Arguments) -> Result<Outcome, Failure> {
    let disk = Disk::open(arguments, Access::Read)?;
    let picture = arguments.optional_path("--svg");
    if let Some(path) = &picture {
        picture::check_target(path, &disk, &arguments.path("key")?)?;
    }
    let report = survey(&disk)?;
    disk.note_unreadable(report.unreadable);
    if let Some(path) = &picture {
        picture::replace(path, &svg::draw(&disk.superblock, &report))?;
    }
    let text = match arguments.has("--json") {
        true => json::status(&disk.superblock, &report),
        false => text(&disk.superblock, &report),
    };
    output::print(&text)?;
    Ok(report.outcome())
}

fn text(superblock: &Superblock, report: &Report) -> String {
    let mut text = summary(superblock, report);
    if report.runs().next().is_some() {
        text.push_str("\nwhat is not whole, in the order of repair:\n");
        text.push_str(&advice::list(report.runs()));
        text.push_str("\nwhat to do:\n");
        text.push_str(&advice::what_to_do(report));
    }
    text
}

fn summary(superblock: &Superblock, report: &Report) -> String {
    let shape = &superblock.shape;
    let mut text = format!("disk {}\n", superblock.uuid);
    let mut line = |name: &str, value: String| {
        writeln!(text, "  {name:<9} {value}").expect("a string takes all");
    };
    let bytes = shape.bytes();
    line(
        "size",
        format!("{} bytes, {}", grouped(bytes), readable(bytes)),
    );
    let sector_bytes = grouped(shape.sector_bytes as u64);
    line(
        "sectors",
        format!("{} of {sector_bytes} bytes", grouped(shape.sectors)),
    );
    line("parts", shape.parts_in_words());
    line("whole", grouped(report.whole));
    line("doubtful", grouped(report.doubtful));
    line("clashing", grouped(report.clashing));
    line("lost", grouped(report.lost));
    line("health", format!("{} of 1,000", grouped(report.health())));
    text
}
