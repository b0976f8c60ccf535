//! A bar on standard error that says how far a command has come.

use std::io::{self, IsTerminal, Write};
use std::time::{Duration, Instant};

use crate::size::{grouped, readable};

/// The characters of the bar.
const WIDTH: u64 = 16;

/// The time between two drawings.
const PAUSE: Duration = Duration::from_millis(100);

/// It is drawn on a terminal only.
pub struct Progress {
    doing: &'static str,
    all: u64,
    done: u64,
    sector_bytes: u64,
    start: Instant,
    drawn: Option<Instant>,
    shown: bool,
}

impl Progress {
    pub fn new(doing: &'static str, sectors: u64, sector_bytes: usize) -> Progress {
        let mut progress = Progress {
            doing,
            all: sectors,
            done: 0,
            sector_bytes: sector_bytes as u64,
            start: Instant::now(),
            drawn: None,
            shown: io::stderr().is_terminal(),
        };
        progress.add(0);
        progress
    }

    /// So many more sectors are done.
    pub fn add(&mut self, sectors: u64) {
        self.done += sectors;
        let is_due = self.drawn.is_none_or(|drawn| drawn.elapsed() >= PAUSE);
        if self.shown && (is_due || self.done == self.all) {
            self.drawn = Some(Instant::now());
            self.draw();
        }
    }

    fn draw(&self) {
        let line = line(
            self.doing,
            self.done,
            self.all,
            self.sector_bytes,
            self.start.elapsed(),
        );
        let mut terminal = io::stderr().lock();
        // Without wrapping, so that a narrow terminal keeps it in one line. One that is
        // gone is no reason to stop.
        let _ = write!(terminal, "\r\x1b[?7l{line}\x1b[K\x1b[?7h");
        let _ = terminal.flush();
    }
}

/// The line is removed when the command is done with it, or fails.
impl Drop for Progress {
    fn drop(&mut self) {
        if self.drawn.is_some() {
            let _ = write!(io::stderr(), "\r\x1b[K");
        }
    }
}

fn line(doing: &str, done: u64, all: u64, sector_bytes: u64, elapsed: Duration) -> String {
    let share = |of: u64| (u128::from(done) * u128::from(of) / u128::from(all.max(1))) as u64;
    let filled = share(WIDTH) as usize;
    let bar = format!(
        "{}{}",
        "#".repeat(filled),
        ".".repeat(WIDTH as usize - filled)
    );
    let seconds = elapsed.as_secs_f64().max(0.001);
    let rate = done as f64 / seconds;
    let left = match done {
        0 => "?".to_string(),
        _ => clock(((all - done) as f64 / rate) as u64),
    };
    format!(
        "{doing} [{bar}] {}% {} of {} sectors, {}/s, {left} left",
        share(100),
        grouped(done),
        grouped(all),
        readable((rate * sector_bytes as f64) as u64),
    )
}

fn clock(seconds: u64) -> String {
    match seconds / 3600 {
        0 => format!("{}:{:02}", seconds / 60, seconds % 60),
        hours => format!("{hours}:{:02}:{:02}", seconds / 60 % 60, seconds % 60),
    }
}

#[cfg(test)]
mod tests {
    use super::*;

    #[test]
    fn a_line_says_how_far() {
        let text = line("surveying", 500, 2000, 4096, Duration::from_secs(1));
        assert_eq!(
            text,
            "surveying [####............] 25% 500 of 2,000 sectors, 1.9 MiB/s, 0:03 left"
        );
        assert!(line("surveying", 0, 0, 16, Duration::ZERO).contains(" 0% "));
    }

    #[test]
    fn times_are_readable() {
        assert_eq!(clock(59), "0:59");
        assert_eq!(clock(61), "1:01");
        assert_eq!(clock(3661), "1:01:01");
    }
}
