//! Times the calls of the proved library against the independent implementation
//! in Rust and against portable C, all in one run. See docs/PERFORMANCE.md.
//!
//!     calls [--runs N] [--quick] [--instructions] [--plot FILE]
//!     calls CASE SIZE IMPLEMENTATION REPEATS SECTORS

mod cases;
mod figures;
mod implementations;
mod measure;
mod plain;
mod plot;
mod report;
mod volume;

use cases::Case;
use figures::{Counts, Times};
use implementations::ALL;
use std::time::Duration;

/// How long one case of one size is timed in a run.
const BUDGET: Duration = Duration::from_millis(350);
const QUICK_BUDGET: Duration = Duration::from_millis(10);

const USAGE: &str = "usage: calls [--runs N] [--quick] [--instructions] [--plot FILE]
       calls CASE SIZE IMPLEMENTATION REPEATS SECTORS";

fn main() {
    plain::start();
    let arguments: Vec<String> = std::env::args().skip(1).collect();
    match &arguments[..] {
        [case, size, implementation, repeats, sectors] if !case.starts_with('-') => {
            repeat_one(
                case,
                number(size),
                implementation,
                number(repeats),
                number(sectors),
            );
        }
        _ => benchmark(&Options::new(&arguments)),
    }
}

struct Options {
    runs: usize,
    budget: Duration,
    instructions: bool,
    plot: Option<String>,
}

impl Options {
    fn new(arguments: &[String]) -> Options {
        let mut options = Options {
            runs: 1,
            budget: BUDGET,
            instructions: false,
            plot: None,
        };
        let mut rest = arguments.iter();
        while let Some(word) = rest.next() {
            match word.as_str() {
                "--runs" => options.runs = number(rest.next().unwrap_or_else(usage)).max(1),
                "--quick" => options.budget = QUICK_BUDGET,
                "--instructions" => options.instructions = true,
                "--plot" => options.plot = Some(rest.next().unwrap_or_else(usage).clone()),
                _ => usage(),
            }
        }
        options
    }
}

fn number(text: &str) -> usize {
    text.parse().unwrap_or_else(|_| usage())
}

fn usage<T>() -> T {
    eprintln!("{USAGE}");
    std::process::exit(2)
}

fn repeat_one(case: &str, size: usize, name: &str, repeats: usize, sectors: usize) {
    let case = Case::named(case);
    let implementation = ALL.iter().find(|one| one.name == name);
    let implementation = implementation.unwrap_or_else(usage);
    measure::repeat(case, &case.volume(size, sectors), implementation, repeats);
}

fn benchmark(options: &Options) {
    figures::insist_on_agreement();
    eprintln!("calls: library, Rust and C agree on every call that is timed");
    let mut times = Times::new();
    for run in 1..=options.runs {
        eprintln!("calls: run {run} of {}", options.runs);
        times.add_run(options.budget);
    }
    let counts = options.instructions.then(|| {
        eprintln!("calls: counting instructions");
        Counts::new()
    });
    report::print_ratios(&times, options.runs);
    if let Some(counts) = &counts {
        report::print_counts(counts);
    }
    report::print_growth_with_size(&times, counts.as_ref());
    report::print_growth_with_count(&times, counts.as_ref());
    report::print_times(&times);
    if let Some(path) = &options.plot {
        std::fs::write(path, plot::draw(&times)).expect("the plot can be written");
    }
}
