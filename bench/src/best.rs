//! The best times of both sides, and what is said of them: whether ours took longer, and why.

use std::process::ExitCode;

/// In nanoseconds.
#[derive(Clone, Copy)]
pub struct Best {
    pub ours: f64,
    pub rust: f64,
}

const UNEXPLAINED: &str = "NOT EXPLAINED";

impl Best {
    /// Any time is better.
    pub const NONE: Best = Best {
        ours: f64::INFINITY,
        rust: f64::INFINITY,
    };

    /// What disturbs a run only ever makes it longer, so the shortest counts.
    pub fn keep(&mut self, ours: f64, rust: f64) {
        self.ours = self.ours.min(ours);
        self.rust = self.rust.min(rust);
    }

    /// Ours to the Rust, in the hundredths that are printed.
    pub fn ratio(&self) -> f64 {
        (100.0 * self.ours / self.rust).round() / 100.0
    }

    /// Why the ratio is above 1.0, if it is.
    pub fn why(&self, reason: Option<&'static str>) -> &'static str {
        // a ratio that is no number is not fine either
        if self.ratio() <= 1.0 {
            ""
        } else {
            reason.unwrap_or(UNEXPLAINED)
        }
    }
}

/// How many rows there are, and those above 1.0 for which there is no reason.
#[derive(Default)]
pub struct Verdict {
    rows: usize,
    unexplained: Vec<String>,
}

impl Verdict {
    pub fn take(&mut self, row: &str, best: Best, reason: Option<&'static str>) {
        self.rows += 1;
        if best.why(reason) == UNEXPLAINED {
            let row = format!("{row} ({:.2})", best.ratio());
            self.unexplained.push(row);
        }
    }

    /// The last line, and the status to end with.
    pub fn end(self) -> ExitCode {
        let (rows, status) = if self.unexplained.is_empty() {
            ("none".to_string(), ExitCode::SUCCESS)
        } else {
            (self.unexplained.join("; "), ExitCode::FAILURE)
        };
        println!("Of {} rows, above 1.0 and not explained: {rows}", self.rows);
        status
    }
}
