//! `mend`: writes the damaged place of every doubtful sector anew.

use std::ops::Range;

use crate::advice;
use crate::args::{Accepted, Arguments};
use crate::disk::Disk;
use crate::failure::Failure;
use crate::files::Access;
use crate::output::{self, Outcome};
use crate::progress::Progress;
use crate::runs::Kind;
use crate::shape::Role;
use crate::size::{grouped, sectors};
use crate::survey::{kind_of, Report};
use crate::window::{Touched, Window};

pub const ACCEPTED: Accepted = Accepted {
    parameters: &["local", "tags", "remote", "key"],
    with_value: &[],
    flags: &[],
};

/// The sectors that are mended between two flushes.
const BATCH: usize = 4096;

pub fn run(arguments: &Arguments) -> Result<Outcome, Failure> {
    let disk = Disk::open(arguments, Access::Write)?;
    let shape = disk.shape();
    let mut progress = Progress::new("mending", shape.sectors, shape.sector_bytes);
    let (mut mended, mut left) = ([0; 3], Report::default());
    for (part, numbers) in shape.batches(0..shape.sectors, BATCH) {
        let mut window = Window::new(&disk, part)?;
        window.load(numbers.clone());
        mend(&mut window, numbers.clone(), &mut mended, &mut left)?;
        progress.add(numbers.len() as u64);
    }
    drop(progress);
    disk.note_unreadable(left.unreadable);
    output::report(&text(mended, &left));
    Ok(left.outcome())
}

/// Mends loaded sectors, and flushes what was written before it answers. Each has
/// one call, so a power cut is a cut in each, and no two are on one sector.
fn mend(
    window: &mut Window,
    numbers: Range<usize>,
    mended: &mut [u64; 3],
    left: &mut Report,
) -> Result<(), Failure> {
    let mut touched = Touched::default();
    for number in numbers {
        let found = kind_of(window.volume.mend(number))?;
        let sector = window.sector_of(number);
        match found {
            Some(Kind::Doubtful(place)) => {
                let role = Role::from(place);
                window.write_out(role, number..number + 1)?;
                touched.add(role);
                mended[role.index()] += 1;
                left.add(sector, None);
            }
            other => left.add(sector, other),
        }
    }
    left.add_unreadable(window.unreadable);
    window.flush(touched)
}

fn text(mended: [u64; 3], left: &Report) -> String {
    let all: u64 = mended.iter().sum();
    let [local, tags, remote] = mended.map(grouped);
    let mut text = match all {
        0 => "nothing was to be mended\n".to_string(),
        _ => format!(
            "mended {}: {local} at the local sector, {tags} at the tag, {remote} at the \
             remote sector\n",
            sectors(all)
        ),
    };
    match left.outcome() {
        Outcome::Whole => {
            let all = sectors(left.sectors());
            text.push_str(&format!("the disk is whole: {all}\n"));
        }
        _ => {
            text.push_str("what is not whole, and cannot be mended:\n");
            text.push_str(&advice::list(left.runs()));
            text.push_str("what to do:\n");
            text.push_str(&advice::what_to_do(left));
        }
    }
    text
}
