//! The survey of a disk: each part's, one after the other.

use mirror::{Refusal, Verdict};

use crate::disk::Disk;
use crate::failure::Failure;
use crate::output::Outcome;
use crate::progress::Progress;
use crate::runs::{push, Kind, Run};
use crate::window::Window;

/// What the surveys of all parts have found.
#[derive(Debug, Default)]
pub struct Report {
    pub whole: u64,
    pub doubtful: u64,
    pub clashing: u64,
    pub lost: u64,
    /// How many places could not be read, by their roles.
    pub unreadable: [u64; 3],
    lost_runs: Vec<Run>,
    clashing_runs: Vec<Run>,
    doubtful_runs: Vec<Run>,
}

impl Report {
    pub fn sectors(&self) -> u64 {
        self.whole + self.doubtful + self.clashing + self.lost
    }

    /// The whole ones in thousandths, rounded down: 1,000 only if all are whole.
    pub fn health(&self) -> u64 {
        let thousandths = u128::from(self.whole) * 1000 / u128::from(self.sectors().max(1));
        thousandths as u64
    }

    /// What is not whole, in the order of repair: the lost, then the clashing, then
    /// the doubtful; within a kind the numbers rise.
    pub fn runs(&self) -> impl Iterator<Item = &Run> + Clone {
        let refused = self.lost_runs.iter().chain(&self.clashing_runs);
        refused.chain(&self.doubtful_runs)
    }

    pub fn outcome(&self) -> Outcome {
        match (self.lost + self.clashing, self.doubtful) {
            (0, 0) => Outcome::Whole,
            (0, _) => Outcome::Doubtful,
            _ => Outcome::Damaged,
        }
    }

    /// Counts a sector, and lists it if it is not whole. Within a kind the numbers
    /// rise.
    pub fn add(&mut self, sector: u64, kind: Option<Kind>) {
        let Some(kind) = kind else {
            self.whole += 1;
            return;
        };
        let (count, runs) = match kind {
            Kind::Lost => (&mut self.lost, &mut self.lost_runs),
            Kind::Clashing => (&mut self.clashing, &mut self.clashing_runs),
            Kind::Doubtful(_) => (&mut self.doubtful, &mut self.doubtful_runs),
        };
        *count += 1;
        push(runs, sector, kind);
    }

    pub fn add_unreadable(&mut self, unreadable: [u64; 3]) {
        for (all, more) in self.unreadable.iter_mut().zip(unreadable) {
            *all += more;
        }
    }

    /// Adds a part's survey. The window has all of the part.
    fn add_survey(&mut self, window: &mut Window) -> Result<(), Failure> {
        let mut list = vec![0; window.volume.count()];
        let (survey, listed) = window.volume.survey(&mut list)?;
        let kinds = survey.by_kind(listed);
        self.whole += survey.whole as u64;
        for &number in kinds.lost {
            self.add(window.sector_of(number as usize), Some(Kind::Lost));
        }
        for &number in kinds.clashing {
            self.add(window.sector_of(number as usize), Some(Kind::Clashing));
        }
        for &number in kinds.doubtful {
            // The list does not say which place is in doubt: a read does.
            let kind = judge(window, number as usize)?;
            self.add(window.sector_of(number as usize), kind);
        }
        self.add_unreadable(window.unreadable);
        Ok(())
    }
}

/// Why a loaded sector is not whole; none if it is.
pub fn judge(window: &mut Window, number: usize) -> Result<Option<Kind>, Failure> {
    let mut plaintext = vec![0; window.volume.size()];
    kind_of(window.volume.read(number, &mut plaintext))
}

/// The kind that a call's answer says.
pub fn kind_of(answer: Result<Verdict, Refusal>) -> Result<Option<Kind>, Failure> {
    match answer {
        Ok(Verdict::Whole) => Ok(None),
        Ok(Verdict::Doubtful(place)) => Ok(Some(Kind::Doubtful(place))),
        Err(Refusal::Lost) => Ok(Some(Kind::Lost)),
        Err(Refusal::Clashing) => Ok(Some(Kind::Clashing)),
        Err(refusal) => Err(refusal.into()),
    }
}

/// Surveys the whole disk.
pub fn survey(disk: &Disk) -> Result<Report, Failure> {
    let shape = disk.shape();
    let mut progress = Progress::new("surveying", shape.sectors, shape.sector_bytes);
    let mut report = Report::default();
    for part in 0..shape.parts() {
        let mut window = Window::new(disk, part)?;
        window.load_all();
        report.add_survey(&mut window)?;
        progress.add(window.volume.count() as u64);
    }
    Ok(report)
}

#[cfg(test)]
mod tests {
    use super::*;

    #[test]
    fn health_is_rounded_down() {
        let health = |whole, lost| {
            let report = Report {
                whole,
                lost,
                ..Report::default()
            };
            report.health()
        };
        assert_eq!(health(3, 0), 1000);
        assert_eq!(health(2, 1), 666);
        assert_eq!(health(u64::MAX - 1, 1), 999);
        assert_eq!(health(0, 5), 0);
    }
}
