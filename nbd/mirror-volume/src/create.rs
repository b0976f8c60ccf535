//! `create`: makes a disk's three files.

use std::path::PathBuf;

use crate::args::{missing, Accepted, Arguments};
use crate::disk::Disk;
use crate::failure::Failure;
use crate::files::{self, Member};
use crate::key;
use crate::output::{self, Outcome};
use crate::progress::Progress;
use crate::shape::{is_sector_size, Role, Shape};
use crate::size::{grouped, readable, sectors};
use crate::superblock::{Superblock, Uuid};
use crate::window::Window;

pub const ACCEPTED: Accepted = Accepted {
    parameters: &[
        "local", "tags", "remote", "key", "size", "sector", "number", "part",
    ],
    with_value: &[],
    flags: &[],
};

/// The sectors that are blanked before they are written out. Each batch has a window
/// of its own: what is written out takes no memory longer.
const BATCH: usize = 1024;

pub fn run(arguments: &Arguments) -> Result<Outcome, Failure> {
    let paths = arguments.disk_paths()?;
    let shape = shape_of(arguments)?;
    let key = key::load(&arguments.path("key")?)?;
    let uuid = Uuid::from_random(files::random_bytes()?);
    let members = make_files(&paths)?;
    let superblock = Superblock { uuid, shape };
    let disk = Disk {
        superblock,
        key,
        members,
    };
    if let Err(failure) = fill(&disk) {
        paths.iter().for_each(|path| files::remove(path));
        return Err(Failure::of_making(failure));
    }
    output::report(&made(&disk.superblock));
    Ok(Outcome::Whole)
}

/// The shape that the parameters ask for.
fn shape_of(arguments: &Arguments) -> Result<Shape, Failure> {
    let size = arguments.bytes("size")?;
    let size = size.ok_or_else(|| missing("size", "BYTES"))?;
    let sector_bytes = arguments.bytes("sector")?.unwrap_or(4096);
    let sector_bytes = usize::try_from(sector_bytes).unwrap_or(usize::MAX);
    let mut shape = Shape {
        sector_bytes,
        part_sectors: arguments.number("part")?.unwrap_or(65_536),
        sectors: 1,
        first_number: arguments.number("number")?.unwrap_or(0),
    };
    if is_sector_size(sector_bytes) {
        shape.sectors = sectors_of(size, sector_bytes as u64)?;
    }
    match shape.fault() {
        None => Ok(shape),
        Some(fault) => Err(Failure::new(
            "these parameters make no disk",
            format!("give others than {fault}"),
        )),
    }
}

/// How many sectors a size has.
fn sectors_of(size: u64, sector_bytes: u64) -> Result<u64, Failure> {
    let (sectors, rest) = (size / sector_bytes, size % sector_bytes);
    if rest == 0 {
        return Ok(sectors);
    }
    let below = sectors.checked_mul(sector_bytes).filter(|&bytes| bytes > 0);
    let above = (sectors + 1).checked_mul(sector_bytes);
    let nearest: Vec<String> = [below, above]
        .into_iter()
        .flatten()
        .map(|bytes| format!("size={bytes}"))
        .collect();
    Err(Failure::new(
        format!("size={size} is no multiple of the sector, {sector_bytes} bytes"),
        format!("give {}", nearest.join(" or ")),
    ))
}

/// Makes the three files, or none.
fn make_files(paths: &[PathBuf; 3]) -> Result<[Member; 3], Failure> {
    let same = |a: usize, b: usize| paths[a] == paths[b];
    if same(0, 1) || same(0, 2) || same(1, 2) {
        let what_is_wrong = "two of local=, tags= and remote= name one file";
        return Err(Failure::new(what_is_wrong, "name three files"));
    }
    if let Some(path) = paths.iter().find(|path| files::is_there(path)) {
        return Err(files::exists(path));
    }
    let mut made = Vec::new();
    for role in Role::ALL {
        match Member::create(role, &paths[role.index()]) {
            Ok(member) => made.push(member),
            Err(failure) => {
                made.iter().for_each(|member| files::remove(&member.path));
                return Err(failure);
            }
        }
    }
    Ok(made.try_into().expect("a file for each role"))
}

/// Blanks every sector, and writes the superblocks only when all are on the
/// medium: a disk that has them is a disk throughout.
fn fill(disk: &Disk) -> Result<(), Failure> {
    blank_all(disk)?;
    disk.flush()?;
    for role in Role::ALL {
        let bytes = disk.superblock.encode(role, &disk.key)?;
        disk.member(role).write(&bytes, 0)?;
    }
    disk.flush()?;
    disk.members
        .iter()
        .try_for_each(|member| files::flush_folder(&member.path))
}

fn blank_all(disk: &Disk) -> Result<(), Failure> {
    let shape = disk.shape();
    let mut progress = Progress::new("blanking", shape.sectors, shape.sector_bytes);
    for (part, numbers) in shape.batches(0..shape.sectors, BATCH) {
        let mut window = Window::new(disk, part)?;
        for number in numbers.clone() {
            window.volume.blank(number)?;
        }
        for role in Role::ALL {
            window.write_out(role, numbers.clone())?;
        }
        progress.add(numbers.len() as u64);
    }
    Ok(())
}

fn made(superblock: &Superblock) -> String {
    let shape = &superblock.shape;
    format!(
        "made the disk {}: {} of {} bytes, {}\n\
         parts: {}; no other disk under this key may have such a number\n",
        superblock.uuid,
        sectors(shape.sectors),
        grouped(shape.sector_bytes as u64),
        readable(shape.bytes()),
        shape.parts_in_words(),
    )
}
