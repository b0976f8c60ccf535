//! `write`: writes sectors from standard input, in three stages.

use std::io::{self, Read};
use std::ops::Range;

use crate::advice;
use crate::args::{missing, Accepted, Arguments};
use crate::disk::Disk;
use crate::failure::{note, Failure};
use crate::files::Access;
use crate::output::{self, Outcome};
use crate::progress::Progress;
use crate::runs::Kind;
use crate::shape::{Role, Shape};
use crate::size::sectors;
use crate::survey::{judge, Report};
use crate::window::{Touched, Window};

pub const ACCEPTED: Accepted = Accepted {
    parameters: &["local", "tags", "remote", "key", "sector", "overwrite-lost"],
    with_value: &[],
    flags: &[],
};

/// The sectors that go through a stage together.
const BATCH: usize = 256;

pub fn run(arguments: &Arguments) -> Result<Outcome, Failure> {
    let first = arguments.number("sector")?;
    let first = first.ok_or_else(|| missing("sector", "X"))?;
    let overwrite_lost = arguments.truth("overwrite-lost")?;
    let disk = Disk::open(arguments, Access::Write)?;
    let input = read_input(disk.shape(), first)?;
    let count = input.len() / disk.shape().sector_bytes;
    let range = first..first + count as u64;
    let found = judge_all(&disk, range.clone())?;
    disk.note_unreadable(found.unreadable);
    if found.clashing > 0 || found.lost > 0 && !overwrite_lost {
        refuse(&found);
        return Ok(Outcome::Damaged);
    }
    write_all(&disk, range, &input, overwrite_lost)?;
    output::report(&written(first, &found));
    Ok(Outcome::Whole)
}

fn written(first: u64, found: &Report) -> String {
    let mut text = format!(
        "wrote {} from sector {first} on\n",
        sectors(found.sectors())
    );
    for (count, what) in [
        (found.doubtful, "doubtful, and mended"),
        (found.lost, "lost, and given up"),
    ] {
        if count > 0 {
            text.push_str(&format!("before that, {what}: {}\n", sectors(count)));
        }
    }
    text
}

/// All of standard input: sectors that the disk has.
fn read_input(shape: &Shape, first: u64) -> Result<Vec<u8>, Failure> {
    let room = shape.sectors.saturating_sub(first) * shape.sector_bytes as u64;
    if room == 0 {
        return Err(refused(shape, format!("the disk has no sector {first}")));
    }
    let mut input = Vec::new();
    let read = io::stdin().lock().take(room + 1).read_to_end(&mut input);
    read.map_err(|error| refused(shape, format!("reading standard input failed, {error}")))?;
    let what_is_wrong = match input.len() {
        0 => "standard input is empty".to_string(),
        bytes if bytes as u64 > room => {
            format!("standard input has more than the {room} bytes from sector {first} on")
        }
        bytes if !bytes.is_multiple_of(shape.sector_bytes) => {
            format!("standard input has {bytes} bytes, no whole number of sectors")
        }
        _ => return Ok(input),
    };
    Err(refused(shape, what_is_wrong))
}

fn refused(shape: &Shape, what_is_wrong: String) -> Failure {
    let what_to_do = format!(
        "nothing was written: give whole sectors of {} bytes, and no more than the disk's {}, \
         which count from 0",
        shape.sector_bytes, shape.sectors
    );
    Failure::new(what_is_wrong, what_to_do)
}

/// What the sectors are before anything is written.
fn judge_all(disk: &Disk, sectors: Range<u64>) -> Result<Report, Failure> {
    let mut report = Report::default();
    for (part, numbers) in disk.shape().batches(sectors, BATCH) {
        let mut window = Window::new(disk, part)?;
        window.load(numbers.clone());
        for number in numbers {
            let kind = judge(&mut window, number)?;
            report.add(window.sector_of(number), kind);
        }
        report.add_unreadable(window.unreadable);
    }
    Ok(report)
}

fn refuse(found: &Report) {
    let runs = found.runs().filter(|run| run.kind.place().is_none());
    let mut text = format!(
        "nothing was written, for these sectors cannot be read:\n{}what to do:\n",
        advice::list(runs)
    );
    if found.lost > 0 {
        text.push_str(
            "  lost: see by `mirror-volume status ...` that other sectors are whole, and that all \
             places can\n  be read. If so, write again with overwrite-lost=true, which gives up \
             what they held.\n",
        );
    }
    if found.clashing > 0 {
        text.push_str(advice::CLASHING);
    }
    note(text.trim_end());
}

fn write_all(
    disk: &Disk,
    sectors: Range<u64>,
    input: &[u8],
    overwrite_lost: bool,
) -> Result<(), Failure> {
    let size = disk.shape().sector_bytes;
    let mut progress = Progress::new("writing", sectors.end - sectors.start, size);
    let mut input = input.chunks(size);
    for (part, numbers) in disk.shape().batches(sectors, BATCH) {
        let plaintexts: Vec<&[u8]> = input.by_ref().take(numbers.len()).collect();
        let mut window = Window::new(disk, part)?;
        window.load(numbers.clone());
        prepare(&mut window, numbers.clone(), &plaintexts, overwrite_lost)?;
        write(&mut window, numbers.clone(), &plaintexts)?;
        progress.add(numbers.len() as u64);
    }
    Ok(())
}

/// Makes loaded sectors whole, which the first stage asks for: mends the doubtful
/// and gives the lost up. What was written is on the medium when it answers.
fn prepare(
    window: &mut Window,
    numbers: Range<usize>,
    plaintexts: &[&[u8]],
    overwrite_lost: bool,
) -> Result<(), Failure> {
    let mut touched = Touched::default();
    for (number, plaintext) in numbers.zip(plaintexts) {
        let roles: &[Role] = match judge(window, number)? {
            None => &[],
            Some(Kind::Doubtful(place)) => {
                window.volume.mend(number)?;
                &[Role::from(place)]
            }
            Some(Kind::Lost) if overwrite_lost => {
                give_up(window, number, plaintext)?;
                &Role::ALL
            }
            Some(kind) => return Err(changed(window.sector_of(number), kind)),
        };
        for &role in roles {
            window.write_out(role, number..number + 1)?;
            touched.add(role);
        }
    }
    window.flush(touched)
}

/// Blanks a lost sector and writes its new plaintext, all in memory. Both go out
/// together, so that a power cut leaves it lost or with its new plaintext: the zeros
/// of a blank would be taken for data.
fn give_up(window: &mut Window, number: usize, plaintext: &[u8]) -> Result<(), Failure> {
    window.volume.blank(number)?;
    Role::ALL
        .into_iter()
        .try_for_each(|role| stage(window, role, number, plaintext))
}

/// The stage of a write that writes the place in this file, in memory.
fn stage(window: &mut Window, role: Role, number: usize, plaintext: &[u8]) -> Result<(), Failure> {
    match role {
        Role::Local => window.volume.first_stage(number, plaintext)?,
        Role::Tags => window.volume.second_stage(number, plaintext)?,
        Role::Remote => window.volume.third_stage(number, plaintext)?,
    }
    Ok(())
}

/// A sector was judged before anything was written, and is another one now.
fn changed(sector: u64, kind: Kind) -> Failure {
    Failure::new(
        format!("sector {sector} is {kind}, and was not when the command began"),
        "look at the devices, and then at the disk with `mirror-volume status`",
    )
}

/// The three stages. What each wrote is on the medium before the next begins.
fn write(window: &mut Window, numbers: Range<usize>, plaintexts: &[&[u8]]) -> Result<(), Failure> {
    for role in Role::ALL {
        for (number, plaintext) in numbers.clone().zip(plaintexts) {
            stage(window, role, number, plaintext)?;
        }
        window.write_out(role, numbers.clone())?;
        let mut touched = Touched::default();
        touched.add(role);
        window.flush(touched)?;
    }
    Ok(())
}
