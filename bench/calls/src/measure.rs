//! Times by turns, and instructions by callgrind.

use crate::cases::Case;
use crate::implementations::{Call, Implementation};
use crate::volume::Volume;
use std::process::Command;
use std::sync::atomic::{AtomicUsize, Ordering};
use std::time::{Duration, Instant};

/// The shortest time of one call by each implementation, in nanoseconds. They
/// run by turns; the volume is put back before each turn, outside the timing.
pub fn times(
    case: &Case,
    start: &Volume,
    implementations: &[Implementation],
    budget: Duration,
) -> Vec<f64> {
    let mut volume = start.clone();
    let mut best = vec![f64::INFINITY; implementations.len()];
    let begun = Instant::now();
    let mut turns = 0;
    while turns < 3 || begun.elapsed() < budget {
        for (implementation, best) in implementations.iter().zip(&mut best) {
            volume.restore(start);
            *best = best.min(time_of_turn(case, implementation, &mut volume));
        }
        turns += 1;
    }
    best
}

fn time_of_turn(case: &Case, implementation: &Implementation, volume: &mut Volume) -> f64 {
    let calls = case.calls(volume);
    let begun = Instant::now();
    for number in 0..calls {
        case.run(implementation, volume, number);
    }
    begun.elapsed().as_nanos() as f64 / calls as f64
}

/// Makes calls and nothing else, for whoever counts their instructions. Only a
/// mend changes what the next call finds, so that nothing is put back unless
/// there are more mends than sectors.
pub fn repeat(case: &Case, start: &Volume, implementation: &Implementation, repeats: usize) {
    let mut volume = start.clone();
    let calls = case.calls(start);
    for i in 0..repeats {
        if case.call == Call::Mend && i > 0 && i % calls == 0 {
            volume.restore(start);
        }
        case.run(implementation, &mut volume, i % calls);
    }
}

/// What is counted: a case, a size, an implementation by its name, and the
/// sectors of the volume.
#[derive(Clone, Copy)]
pub struct Counted {
    pub case: &'static Case,
    pub size: usize,
    pub implementation: &'static str,
    pub sectors: usize,
}

impl Counted {
    /// The instructions of one call: the difference of two runs leaves out what
    /// a run does once.
    fn instructions(&self) -> f64 {
        let (few, many) = match self.case.call {
            Call::Survey => (1, 3),
            _ => (4, 12),
        };
        (self.total(many) - self.total(few)) / (many - few) as f64
    }

    fn total(&self, repeats: usize) -> f64 {
        let this = std::env::current_exe().expect("a program has a path");
        let output = Command::new("valgrind")
            .args(["--tool=callgrind", "--callgrind-out-file=/dev/null"])
            .arg(this)
            .args([self.case.name, &self.size.to_string(), self.implementation])
            .args([repeats.to_string(), self.sectors.to_string()])
            .output()
            .expect("valgrind runs");
        let printed = String::from_utf8_lossy(&output.stderr);
        let count = printed
            .lines()
            .find_map(|line| line.split("Collected : ").nth(1));
        count
            .and_then(|count| count.trim().parse().ok())
            .unwrap_or_else(|| panic!("no count: {printed}"))
    }
}

/// The instructions of one call of each. Two processes count at a time, which
/// changes no count.
pub fn instructions(counted: &[Counted]) -> Vec<f64> {
    let next = AtomicUsize::new(0);
    let work = || {
        let mut found = Vec::new();
        loop {
            let i = next.fetch_add(1, Ordering::Relaxed);
            let Some(one) = counted.get(i) else {
                return found;
            };
            found.push((i, one.instructions()));
        }
    };
    let mut found = std::thread::scope(|scope| {
        let other = scope.spawn(work);
        [work(), other.join().expect("counting ends")].concat()
    });
    found.sort_by_key(|&(i, _)| i);
    found.into_iter().map(|(_, count)| count).collect()
}
