//! Says on standard error how far a long run is: a bar on a terminal, else a plain line now and then.

use std::io::{stderr, IsTerminal};
use std::time::{Duration, Instant};

pub struct Progress {
    first: u64,
    total: u64,
    start: Instant,
    said: Instant,
    terminal: bool,
}

impl Progress {
    /// Of `total` inputs `first` are done already, by earlier runs.
    pub fn new(first: u64, total: u64) -> Progress {
        let start = Instant::now();
        Progress {
            first,
            total,
            start,
            said: start,
            terminal: stderr().is_terminal(),
        }
    }

    pub fn show(&mut self, done: u64) {
        let pause = Duration::from_millis(if self.terminal { 500 } else { 30_000 });
        if self.said.elapsed() < pause {
            return;
        }
        self.said = Instant::now();
        let line = self.line(done);
        if self.terminal {
            // back to the start of the line, then nothing after its end
            eprint!("\r{} {line}\x1b[K", self.bar(done));
        } else {
            eprintln!("{line}");
        }
    }

    /// Leaves the bar's line.
    pub fn end(&self) {
        if self.terminal {
            eprintln!();
        }
    }

    fn bar(&self, done: u64) -> String {
        let full = (14 * done / self.total) as usize;
        format!("[{:.<14}]", "#".repeat(full))
    }

    /// Short enough for a bar beside it on a narrow terminal.
    fn line(&self, done: u64) -> String {
        let percent = 100.0 * done as f64 / self.total as f64;
        let (billions, of) = (done as f64 / 1e9, self.total as f64 / 1e9);
        let rate = (done - self.first) as f64 / self.start.elapsed().as_secs_f64();
        let millions = rate / 1e6;
        let left = clock((self.total - done) as f64 / rate);
        format!(
            "{percent:.2} %, {billions:.1}/{of:.1} billion, {millions:.0} million/s, {left} left"
        )
    }
}

fn clock(seconds: f64) -> String {
    if !seconds.is_finite() {
        return "?".to_string();
    }
    let seconds = seconds as u64;
    let (hours, minutes) = (seconds / 3600, seconds / 60 % 60);
    format!("{hours}:{minutes:02}:{:02}", seconds % 60)
}
