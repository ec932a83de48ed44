//! What was compared of one call, and how much of it differed. Threads may share a report.

use std::fmt::Debug;
use std::sync::atomic::{AtomicU64, Ordering::Relaxed};

/// So many differences of a call are printed. All are counted.
const PRINTED: u64 = 10;

pub struct Report {
    name: &'static str,
    compared: AtomicU64,
    differ: AtomicU64,
    printed: AtomicU64,
}

/// Calls both sides on every input, in a report of its own.
pub fn compare<I: Copy + Debug, O: PartialEq + Debug>(
    progress: bool,
    name: &'static str,
    inputs: impl Iterator<Item = I>,
    ours: impl Fn(I) -> O,
    oracle: impl Fn(I) -> O,
) -> Report {
    let report = Report::start(progress, name);
    report.compare(inputs, ours, oracle);
    report
}

/// The same of a call that comes in several shapes, each in a report of its own. The oracle is asked once for all.
pub fn compare_each<const N: usize, I: Copy + Debug, O: PartialEq + Debug>(
    reports: [&Report; N],
    inputs: impl Iterator<Item = I>,
    ours: impl Fn(I) -> [O; N],
    oracle: impl Fn(I) -> O,
) {
    let (mut compared, mut differ) = (0, [0; N]);
    for input in inputs {
        compared += 1;
        let oracle = oracle(input);
        for (shape, ours) in ours(input).into_iter().enumerate() {
            if ours != oracle {
                differ[shape] += 1;
                reports[shape].print(input, ours, &oracle);
            }
        }
    }
    for (report, differ) in reports.into_iter().zip(differ) {
        report.count(compared, differ);
    }
}

impl Report {
    /// With `progress` it says which call is next.
    pub fn start(progress: bool, name: &'static str) -> Report {
        if progress {
            println!("{name}: comparing ..");
        }
        Report::resume(name, 0, 0)
    }

    /// Goes on from what an earlier run has compared.
    pub fn resume(name: &'static str, compared: u64, differ: u64) -> Report {
        Report {
            name,
            compared: AtomicU64::new(compared),
            differ: AtomicU64::new(differ),
            printed: AtomicU64::new(0),
        }
    }

    /// Calls both sides on every input.
    pub fn compare<I: Copy + Debug, O: PartialEq + Debug>(
        &self,
        inputs: impl Iterator<Item = I>,
        ours: impl Fn(I) -> O,
        oracle: impl Fn(I) -> O,
    ) {
        compare_each([self], inputs, |input| [ours(input)], oracle);
    }

    pub fn count(&self, compared: u64, differ: u64) {
        self.compared.fetch_add(compared, Relaxed);
        self.differ.fetch_add(differ, Relaxed);
    }

    /// Prints a difference, if it is among the first.
    #[cold]
    pub fn print(&self, input: impl Debug, ours: impl Debug, oracle: impl Debug) {
        // a look first, for threads that all add to one number hold each other up
        let enough = |printed| printed >= PRINTED;
        if enough(self.printed.load(Relaxed)) || enough(self.printed.fetch_add(1, Relaxed)) {
            return;
        }
        println!(
            "{} of {input:?}: ours {ours:?}, the oracle's {oracle:?}",
            self.name
        );
    }

    pub fn compared(&self) -> u64 {
        self.compared.load(Relaxed)
    }

    pub fn differ(&self) -> u64 {
        self.differ.load(Relaxed)
    }

    pub fn summary(&self) {
        println!(
            "{:<22}{:>10} compared, {} differ",
            self.name,
            self.compared(),
            self.differ()
        );
    }
}
