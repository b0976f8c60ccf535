//! The tables, in Markdown.

use crate::cases::{CASES, SIZES};
use crate::figures::{
    Counts, Range, Times, GROWTH_CALLS, GROWTH_COUNTS, GROWTH_SIZES, SURVEY_SIZES,
};
use crate::implementations::ALL;

/// A table whose first column is text and whose others are numbers.
struct Table {
    lines: Vec<String>,
}

impl Table {
    fn new(heads: &[String]) -> Table {
        let rule = "|---".to_string() + &"|---:".repeat(heads.len() - 1) + "|";
        let mut table = Table { lines: Vec::new() };
        table.row(heads);
        table.lines.push(rule);
        table
    }

    fn row(&mut self, cells: &[String]) {
        self.lines.push(format!("| {} |", cells.join(" | ")));
    }

    fn text(&self, title: &str) -> String {
        format!("### {title}\n\n{}\n", self.lines.join("\n"))
    }

    fn print(&self, title: &str) {
        println!("{}", self.text(title));
    }
}

/// A number with a comma between thousands.
pub fn grouped(value: f64) -> String {
    if value.is_nan() {
        return "–".to_string();
    }
    let digits = format!("{value:.0}");
    let mut text = String::new();
    for (i, digit) in digits.chars().enumerate() {
        if i > 0 && (digits.len() - i) % 3 == 0 {
            text.push(',');
        }
        text.push(digit);
    }
    text
}

fn decimal(value: f64) -> String {
    if value.is_nan() {
        return "–".to_string();
    }
    format!("{value:.2}")
}

fn range(range: Range) -> String {
    let (least, greatest) = (decimal(range.least), decimal(range.greatest));
    if least == greatest {
        least
    } else {
        format!("{least}–{greatest}")
    }
}

/// A column for each size behind these words.
fn by_size(words: &str) -> Vec<String> {
    let head = |size: usize| format!("{words} {}", grouped(size as f64));
    SIZES.map(head).to_vec()
}

fn texts(words: &[&str]) -> Vec<String> {
    words.iter().map(|word| word.to_string()).collect()
}

pub fn print_ratios(times: &Times, runs: usize) {
    let heads = [
        texts(&["call"]),
        by_size("to Rust, s ="),
        by_size("to C, s ="),
    ]
    .concat();
    let mut table = Table::new(&heads);
    for (case, rows) in CASES.iter().zip(&times.ratios) {
        let mut cells = texts(&[case.title]);
        for baseline in 0..ALL.len() - 1 {
            cells.extend(rows.iter().map(|row| range(row[baseline])));
        }
        table.row(&cells);
    }
    let over = match runs {
        1 => "one run".to_string(),
        _ => format!("least and greatest of {runs} runs"),
    };
    table.print(&format!(
        "Time of a call, the library's to that of the others ({over})"
    ));
}

/// Goes to standard error: times of one machine are nothing to keep.
pub fn print_times(times: &Times) {
    let heads = [
        texts(&["call"]),
        by_size("library, s ="),
        by_size("Rust, s ="),
        by_size("C, s ="),
    ]
    .concat();
    let mut table = Table::new(&heads);
    for (case, rows) in CASES.iter().zip(&times.calls) {
        let mut cells = texts(&[case.title]);
        for implementation in 0..ALL.len() {
            cells.extend(rows.iter().map(|row| grouped(row[implementation])));
        }
        table.row(&cells);
    }
    eprintln!("{}", table.text("Nanoseconds of a call"));
}

pub fn print_counts(counts: &Counts) {
    let heads = [
        texts(&["call"]),
        by_size("library, s ="),
        by_size("to Rust, s ="),
        by_size("to C, s ="),
    ]
    .concat();
    let mut table = Table::new(&heads);
    for (case, rows) in CASES.iter().zip(&counts.calls) {
        let mut cells = texts(&[case.title]);
        cells.extend(rows.iter().map(|row| grouped(row[0])));
        for baseline in 1..ALL.len() {
            cells.extend(rows.iter().map(|row| decimal(row[0] / row[baseline])));
        }
        table.row(&cells);
    }
    table.print("Instructions of a call, and the ratio of the library's to those of the others");
}

/// What one more costs: the rise from the row above, for each of what was added.
fn further(values: &[f64], xs: &[usize], row: usize) -> f64 {
    if row == 0 {
        return f64::NAN;
    }
    (values[row] - values[row - 1]) / (xs[row] - xs[row - 1]) as f64
}

pub fn print_growth_with_size(times: &Times, counts: Option<&Counts>) {
    let mut heads = texts(&["s"]);
    for name in ["seal", "judge whole"] {
        let of = |what| format!("{name}: {what}");
        heads.extend(["ns", "ns a byte", "instructions", "a further byte"].map(of));
    }
    let mut table = Table::new(&heads);
    for (row, size) in GROWTH_SIZES.into_iter().enumerate() {
        let mut cells = vec![grouped(size as f64)];
        for call in 0..GROWTH_CALLS.len() {
            let time = times.by_size[row][call];
            let counted = |counts: &Counts| counts.by_size.map(|values| values[call]);
            let counted = counts.map_or([f64::NAN; GROWTH_SIZES.len()], counted);
            cells.push(grouped(time));
            cells.push(decimal(time / size as f64));
            cells.push(grouped(counted[row]));
            cells.push(decimal(further(&counted, &GROWTH_SIZES, row)));
        }
        table.row(&cells);
    }
    table.print(
        "Growth of the library's calls with the size s of a sector \
         (a further byte: instructions, from the row above)",
    );
}

pub fn print_growth_with_count(times: &Times, counts: Option<&Counts>) {
    let mut heads = texts(&["n"]);
    for size in SURVEY_SIZES {
        let of = |what| format!("s = {size}: {what}");
        heads.extend(["µs", "ns a sector", "instructions", "a further sector"].map(of));
    }
    let mut table = Table::new(&heads);
    for (row, sectors) in GROWTH_COUNTS.into_iter().enumerate() {
        let mut cells = vec![grouped(sectors as f64)];
        for size in 0..SURVEY_SIZES.len() {
            let time = times.by_count[row][size];
            let counted = |counts: &Counts| counts.by_count.map(|values| values[size]);
            let counted = counts.map_or([f64::NAN; GROWTH_COUNTS.len()], counted);
            cells.push(grouped(time / 1000.0));
            cells.push(grouped(time / sectors as f64));
            cells.push(grouped(counted[row]));
            cells.push(grouped(further(&counted, &GROWTH_COUNTS, row)));
        }
        table.row(&cells);
    }
    table.print(
        "Growth of the library's survey with the number n of sectors, all whole \
         (a further sector: instructions, from the row above)",
    );
}
