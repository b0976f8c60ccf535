//! `read`: writes the plaintext of sectors to standard output.

use std::io::{self, IsTerminal};
use std::ops::Range;

use crate::advice;
use crate::args::{missing, Accepted, Arguments};
use crate::disk::Disk;
use crate::failure::{note, Failure};
use crate::files::Access;
use crate::output::{self, Outcome};
use crate::runs::Kind;
use crate::shape::Shape;
use crate::survey::{kind_of, Report};
use crate::window::Window;

pub const ACCEPTED: Accepted = Accepted {
    parameters: &["local", "tags", "remote", "key", "sector", "count"],
    with_value: &[],
    flags: &[],
};

/// The sectors that are read before they are printed.
const BATCH: usize = 256;

pub fn run(arguments: &Arguments) -> Result<Outcome, Failure> {
    if io::stdout().is_terminal() {
        let what_is_wrong = "standard output is a terminal, and sectors are no text";
        return Err(Failure::new(
            what_is_wrong,
            "write them to a file, by > FILE",
        ));
    }
    let first = arguments.number("sector")?;
    let first = first.ok_or_else(|| missing("sector", "X"))?;
    let count = arguments.number("count")?.unwrap_or(1);
    let disk = Disk::open(arguments, Access::Read)?;
    let sectors = sectors_of(disk.shape(), first, count)?;
    let mut report = Report::default();
    for (part, numbers) in disk.shape().batches(sectors, BATCH) {
        let mut window = Window::new(&disk, part)?;
        window.load(numbers.clone());
        let refused = read(&mut window, numbers, &mut report)?;
        if refused {
            break;
        }
    }
    disk.note_unreadable(report.unreadable);
    tell(&report);
    Ok(report.outcome())
}

/// The sectors from the first on, if the disk has them.
pub fn sectors_of(shape: &Shape, first: u64, count: u64) -> Result<Range<u64>, Failure> {
    match first.checked_add(count) {
        Some(end) if count > 0 && end <= shape.sectors => Ok(first..end),
        _ => Err(Failure::new(
            format!("the disk has no {count} sectors from sector {first} on"),
            format!("its {} sectors count from 0", shape.sectors),
        )),
    }
}

/// Prints the plaintexts of loaded sectors up to the first that has none, and says
/// whether there is one.
fn read(window: &mut Window, numbers: Range<usize>, report: &mut Report) -> Result<bool, Failure> {
    let size = window.volume.size();
    let mut plaintexts = vec![0; numbers.len() * size];
    let mut given = 0;
    let mut refused = false;
    for (number, plaintext) in numbers.zip(plaintexts.chunks_mut(size)) {
        let found = kind_of(window.volume.read(number, plaintext))?;
        report.add(window.sector_of(number), found);
        refused = matches!(found, Some(Kind::Lost | Kind::Clashing));
        if refused {
            break;
        }
        given += size;
    }
    report.add_unreadable(window.unreadable);
    output::put(&plaintexts[..given])?;
    Ok(refused)
}

fn tell(report: &Report) {
    match report.outcome() {
        Outcome::Whole => {}
        outcome => {
            let what = match outcome {
                Outcome::Damaged => "read up to the first sector without a plaintext",
                _ => "read, and all data is there",
            };
            let list = advice::list(report.runs());
            let what_to_do = advice::what_to_do(report);
            note(&format!(
                "{what}:\n{list}what to do:\n{}",
                what_to_do.trim_end()
            ));
        }
    }
}
