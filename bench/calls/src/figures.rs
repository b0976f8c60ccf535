//! What a benchmark finds, gathered over its runs.

use crate::cases::{Case, CASES, SECTORS, SIZES};
use crate::implementations::ALL;
use crate::measure::{instructions, times, Counted};
use std::time::Duration;

/// The sizes at which growth is measured.
pub const GROWTH_SIZES: [usize; 12] = [
    16, 32, 64, 128, 256, 512, 1024, 1536, 2048, 2560, 3072, 4096,
];

/// The calls whose growth with the size is measured.
pub const GROWTH_CALLS: [&str; 2] = ["seal", "judge-whole"];

/// The counts of sectors at which the survey's growth is measured, and the most
/// for which instructions are counted.
pub const GROWTH_COUNTS: [usize; 7] = [1, 4, 16, 64, 256, 1024, 4096];
const MOST_COUNTED: usize = 256;

/// The sizes of the sectors in these surveys.
pub const SURVEY_SIZES: [usize; 2] = [16, 512];

/// The least and the greatest over the runs; NaN where nothing is timed.
#[derive(Clone, Copy)]
pub struct Range {
    pub least: f64,
    pub greatest: f64,
}

impl Range {
    const NONE: Range = Range {
        least: f64::NAN,
        greatest: f64::NAN,
    };

    /// Of a number and NaN, `min` and `max` give the number.
    fn add(&mut self, value: f64) {
        self.least = self.least.min(value);
        self.greatest = self.greatest.max(value);
    }
}

/// A value for each size, case and implementation.
pub type ByCase = [[[f64; ALL.len()]; SIZES.len()]; CASES.len()];

/// A value for each size and call.
pub type BySize = [[f64; GROWTH_CALLS.len()]; GROWTH_SIZES.len()];

/// A value for each count of sectors and size.
pub type ByCount = [[f64; SURVEY_SIZES.len()]; GROWTH_COUNTS.len()];

/// Times are nanoseconds of a call, the least of all runs. Ratios are the
/// library's time to that of the others, each within one run. What is not timed
/// is NaN.
pub struct Times {
    pub calls: ByCase,
    pub ratios: [[[Range; ALL.len() - 1]; SIZES.len()]; CASES.len()],
    pub by_size: BySize,
    pub by_count: ByCount,
}

/// Instructions of a call. What is not counted is NaN.
pub struct Counts {
    pub calls: ByCase,
    pub by_size: BySize,
    pub by_count: ByCount,
}

/// Ends the program unless the implementations agree on every case that is
/// timed.
pub fn insist_on_agreement() {
    for case in &CASES {
        for (_, size) in case.sizes() {
            case.insist_on_agreement(&case.volume(size, SECTORS));
        }
    }
    for name in GROWTH_CALLS {
        for size in GROWTH_SIZES {
            let case = Case::named(name);
            case.insist_on_agreement(&case.volume(size, SECTORS));
        }
    }
    let survey = Case::named("survey");
    for size in SURVEY_SIZES {
        for count in GROWTH_COUNTS {
            survey.insist_on_agreement(&survey.volume(size, count));
        }
    }
}

impl Times {
    pub fn new() -> Times {
        Times {
            calls: [[[f64::NAN; ALL.len()]; SIZES.len()]; CASES.len()],
            ratios: [[[Range::NONE; ALL.len() - 1]; SIZES.len()]; CASES.len()],
            by_size: [[f64::INFINITY; GROWTH_CALLS.len()]; GROWTH_SIZES.len()],
            by_count: [[f64::INFINITY; SURVEY_SIZES.len()]; GROWTH_COUNTS.len()],
        }
    }

    /// One run of everything, with so much time for each case and size.
    pub fn add_run(&mut self, budget: Duration) {
        for (c, case) in CASES.iter().enumerate() {
            for (s, size) in case.sizes() {
                let found = times(case, &case.volume(size, SECTORS), &ALL, budget);
                for (best, time) in self.calls[c][s].iter_mut().zip(&found) {
                    *best = best.min(*time);
                }
                for (ratio, time) in self.ratios[c][s].iter_mut().zip(&found[1..]) {
                    ratio.add(found[0] / time);
                }
            }
        }
        self.add_growth(budget / 2);
    }

    fn add_growth(&mut self, budget: Duration) {
        let library = |case: &Case, size, sectors| {
            times(case, &case.volume(size, sectors), &ALL[..1], budget)[0]
        };
        for (row, size) in self.by_size.iter_mut().zip(GROWTH_SIZES) {
            for (best, name) in row.iter_mut().zip(GROWTH_CALLS) {
                *best = best.min(library(Case::named(name), size, SECTORS));
            }
        }
        for (row, count) in self.by_count.iter_mut().zip(GROWTH_COUNTS) {
            for (best, size) in row.iter_mut().zip(SURVEY_SIZES) {
                *best = best.min(library(Case::named("survey"), size, count));
            }
        }
    }
}

impl Counts {
    pub fn new() -> Counts {
        let mut counts = Counts {
            calls: [[[f64::NAN; ALL.len()]; SIZES.len()]; CASES.len()],
            by_size: [[f64::NAN; GROWTH_CALLS.len()]; GROWTH_SIZES.len()],
            by_count: [[f64::NAN; SURVEY_SIZES.len()]; GROWTH_COUNTS.len()],
        };
        let (mut counted, mut places) = (Vec::new(), Vec::new());
        for (one, place) in counts.all() {
            counted.push(one);
            places.push(place);
        }
        for (place, count) in places.into_iter().zip(instructions(&counted)) {
            *place = count;
        }
        counts
    }

    /// What is to be counted, each with the place for it.
    fn all(&mut self) -> Vec<(Counted, &mut f64)> {
        let mut all = Vec::new();
        let mut add = |case, size, implementation, sectors, place| {
            let counted = Counted {
                case,
                size,
                implementation,
                sectors,
            };
            all.push((counted, place));
        };
        for (case, rows) in CASES.iter().zip(&mut self.calls) {
            for (size, row) in SIZES.into_iter().zip(rows) {
                if !case.state.is_possible(size) {
                    continue;
                }
                for (implementation, place) in ALL.iter().zip(row) {
                    add(case, size, implementation.name, SECTORS, place);
                }
            }
        }
        for (size, row) in GROWTH_SIZES.into_iter().zip(&mut self.by_size) {
            for (name, place) in GROWTH_CALLS.into_iter().zip(row) {
                add(Case::named(name), size, ALL[0].name, SECTORS, place);
            }
        }
        for (count, row) in GROWTH_COUNTS.into_iter().zip(&mut self.by_count) {
            for (size, place) in SURVEY_SIZES.into_iter().zip(row) {
                if count <= MOST_COUNTED {
                    add(Case::named("survey"), size, ALL[0].name, count, place);
                }
            }
        }
        all
    }
}
