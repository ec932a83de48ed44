//! How a call is timed.
//!
//! The oracle's single calls are marked `#[inline(always)]`; ours are true calls, into an archive.
//! `black_box` holds the input and the result of both, so that the compiler can neither work an
//! answer out beforehand nor drop it nor take many at once: both sides answer one input at a time.
//! What a call costs beside an inlined body is in our figure, as it is for whoever links the archive;
//! a third figure has the oracle behind a call too, which says how much of the difference that is. Where
//! ours copies a table before it reads one entry, a fourth has the oracle behind a call that does the same.
//! No input waits for the result before it, so the figure is how often a call can be made, not how
//! long one takes from its input to its result.

use crate::best::Best;
use std::hint::black_box;
use std::time::Instant;

pub const RUNS: usize = 501;

/// Nanoseconds a call.
pub struct Row {
    pub call: &'static str,
    pub best: Best,
    /// The oracle's, behind a call.
    pub called: f64,
    /// The oracle's, behind a call that copies a table as ours does.
    pub copied: Option<f64>,
    reason: Option<&'static str>,
}

impl Row {
    /// The reason, if the times bear it: under the same burden the Rust has to take about as long as ours.
    /// For a call that is to 5 %. Its copy may be made in wider words, and take half as long.
    pub fn reason(&self) -> Option<&'static str> {
        let bound = self.copied.map_or(1.05 * self.called, |time| 2.0 * time);
        self.reason.filter(|_| self.best.ours <= bound)
    }
}

/// Times all sides in turn, so that what else the machine does falls on all. The best run counts.
///
/// `read` is what our call does with the table that it copies, if that has any entries: it gives the input
/// back, but only when it has the entry, which is 0.
pub fn row<const ENTRIES: usize, I: Copy, O: PartialEq>(
    call: &'static str,
    inputs: &[I],
    ours: impl Fn(I) -> O,
    rust: impl Fn(I) -> O,
    read: impl Fn(I, &[u16; ENTRIES]) -> I,
    reason: Option<&'static str>,
) -> Row {
    eprintln!("timing {call} ..");
    let same = inputs.iter().all(|&input| ours(input) == rust(input));
    assert!(same, "{call}: another answer takes another time");
    let mut best = Best::NONE;
    let mut called = f64::INFINITY;
    let mut copied = f64::INFINITY;
    for _ in 0..RUNS {
        best.keep(run(inputs, &ours), run(inputs, &rust));
        called = called.min(run(inputs, |x| behind_call(&rust, x)));
        if ENTRIES > 0 {
            copied = copied.min(run(inputs, |x| behind_copy(&rust, &read, x)));
        }
    }
    Row {
        call,
        best,
        called,
        copied: (ENTRIES > 0).then_some(copied),
        reason,
    }
}

#[inline(never)]
fn behind_call<I, O>(call: &impl Fn(I) -> O, input: I) -> O {
    call(input)
}

#[inline(never)]
fn behind_copy<const ENTRIES: usize, I, O>(
    call: &impl Fn(I) -> O,
    read: &impl Fn(I, &[u16; ENTRIES]) -> I,
    input: I,
) -> O {
    let table = *black_box(&[0; ENTRIES]);
    call(read(input, black_box(&table)))
}

/// What the loop and its two `black_box` take with nothing between them.
pub fn loop_alone() -> f64 {
    let inputs = shuffled((i16::MIN..=i16::MAX).collect());
    let times = (0..RUNS).map(|_| run(&inputs, |x| x));
    times.fold(f64::INFINITY, f64::min)
}

#[inline(never)]
fn run<I: Copy, O>(inputs: &[I], call: impl Fn(I) -> O) -> f64 {
    let start = Instant::now();
    for &input in inputs {
        black_box(call(black_box(input)));
    }
    start.elapsed().as_nanos() as f64 / inputs.len() as f64
}

/// The inputs in an order that no branch predictor knows, and the same in every run.
pub fn shuffled<I>(mut inputs: Vec<I>) -> Vec<I> {
    let mut state: u64 = 1;
    for i in (1..inputs.len()).rev() {
        state = state
            .wrapping_mul(6364136223846793005)
            .wrapping_add(1442695040888963407);
        inputs.swap(i, (state >> 33) as usize % (i + 1));
    }
    inputs
}
