//! What is not whole, and what to do about it.

use std::fmt::Write;

use crate::output::Outcome;
use crate::runs::Run;
use crate::size::grouped;
use crate::survey::Report;

/// The lines of a list that are printed.
const LINES: usize = 40;

/// A line for each run, the first of them if there are many.
pub fn list<'r>(runs: impl Iterator<Item = &'r Run> + Clone) -> String {
    let mut text = String::new();
    for run in runs.clone().take(LINES) {
        writeln!(text, "  {run}").expect("a string takes all");
    }
    let more = runs.count().saturating_sub(LINES);
    if more > 0 {
        writeln!(text, "  and {} more", grouped(more as u64)).expect("a string takes all");
    }
    text
}

/// What to do for each kind that was found.
pub fn what_to_do(report: &Report) -> String {
    let mut text = String::new();
    let nothing_fits = report.whole == 0 && report.outcome() == Outcome::Damaged;
    let unread = report.unreadable.iter().any(|&places| places > 0);
    for (holds, advice) in [
        (nothing_fits, NOTHING_WHOLE),
        (report.lost > 0 && unread, LOST_AND_UNREAD),
        (report.lost > 0 && !unread && !nothing_fits, LOST),
        (report.clashing > 0, CLASHING),
        (report.doubtful > 0, DOUBTFUL),
    ] {
        if holds {
            text.push_str(advice);
        }
    }
    text
}

const NOTHING_WHOLE: &str = concat!(
    "  None of these sectors is whole. If that is so of the disk or of a part of it, the files may\n",
    "  be wrong, or their number: overwrite nothing, and look for the right files first.\n",
);

const LOST_AND_UNREAD: &str = concat!(
    "  lost, and places cannot be read: the data may still be on the medium. Overwrite nothing:\n",
    "  copy the file to a good medium first, docs/DISK.md, When something is wrong.\n",
);

const LOST: &str = concat!(
    "  lost: no plaintext fits two places. If all sectors of a part are lost, look for the right\n",
    "  files. Else write them from a backup, which gives up what they held:\n",
    "  `mirror-volume write ... sector=X overwrite-lost=true`.\n",
);

pub const CLASHING: &str = concat!(
    "  clashing: more than one plaintext fits two places. Overwrite nothing, keep a copy of the\n",
    "  three files, and let somebody who knows the data choose: docs/OPERATORS.md, Clashing.\n",
);

const DOUBTFUL: &str = concat!(
    "  doubtful: the data is there. One place is damaged, or a write was cut. Mend soon, before\n",
    "  a second place is damaged: `mirror-volume mend ...`. Not so if two of the files may be old\n",
    "  copies: docs/DISK.md, When something is wrong.\n",
);
