//! How calls on blocks are timed, in nanoseconds a sample.
//!
//! What is timed goes over many different blocks, for one block over and over would teach the processor
//! all its branches. It starts from a zeroed state, which is handed on from call to call. `black_box`
//! holds the slices of both sides, so that no work can be dropped. The buffers are allocated and written
//! once before the first round, and nobody clears them.
//!
//! All rows are timed in turn, round by round, and both sides of a row in turn, so that what else the
//! machine does falls on all. In every other round the Rust comes first: whoever does finds the input far
//! away, for the other rows have been there since. The best round counts: what disturbs a run only ever
//! makes it longer, and may stay for seconds.

use crate::best::Best;
use std::hint::black_box;
use std::time::Instant;

pub const RUNS: usize = 201;
/// A timing takes so many samples at least, again and again the same if there are fewer. At 0.3
/// nanoseconds each, faster than any call here that codes, that is 20 microseconds.
pub const LEAST: usize = 1 << 16;

/// Nanoseconds a sample, or a call where the table says so.
pub struct Row<'a> {
    pub call: &'static str,
    pub content: &'static str,
    /// How many of what, such as blocks in a call.
    pub number: usize,
    pub unit: &'static str,
    pub best: Best,
    /// Why ours may take longer.
    pub reason: Option<&'static str>,
    round: Round<'a>,
}

/// One round of a row: ours, and the Rust's.
type Round<'a> = Box<dyn FnMut() -> (f64, f64) + 'a>;

impl<'a> Row<'a> {
    pub fn new(
        call: &'static str,
        content: &'static str,
        (number, unit): (usize, &'static str),
        reason: Option<&'static str>,
        round: impl FnMut() -> (f64, f64) + 'a,
    ) -> Row<'a> {
        Row {
            call,
            content,
            number,
            unit,
            best: Best::NONE,
            reason,
            round: Box::new(round),
        }
    }
}

/// Times all rows together.
pub fn time(tables: &mut [Vec<Row>]) {
    for _ in 0..RUNS {
        for row in tables.iter_mut().flatten() {
            let (ours, rust) = (row.round)();
            row.best.keep(ours, rust);
        }
    }
}

/// A call takes in `from` numbers of the input, and gives `to`. So many samples go by in all of them, in ours and
/// in the Rust's.
pub fn round<'a, A, S: Default, B: Clone + Default + PartialEq + 'a>(
    samples: [usize; 2],
    (input, from): (&'a [A], usize),
    to: usize,
    ours: impl Fn(&[A], &mut S, &mut [B]) -> u8 + 'a,
    rust: impl Fn(&[A], &mut S, &mut [B]) -> u8 + 'a,
) -> impl FnMut() -> (f64, f64) + 'a {
    let mut output = vec![B::default(); input.len() / from * to];
    let [in_ours, in_rust] = samples;
    let ours = move |output: &mut [B]| run(in_ours, (input, from), (output, to), &ours);
    let rust = move |output: &mut [B]| run(in_rust, (input, from), (output, to), &rust);
    ours(&mut output);
    let answers = output.clone();
    rust(&mut output);
    assert!(answers == output, "another answer takes another time");

    let mut ours_first = false;
    move || {
        ours_first = !ours_first;
        if ours_first {
            (ours(&mut output), rust(&mut output))
        } else {
            let rust = rust(&mut output);
            (ours(&mut output), rust)
        }
    }
}

/// Nanoseconds a sample, where so many go by in a pass: one call for each `from` numbers that go in and `to` that
/// come out.
#[inline(never)]
fn run<A, S: Default, B>(
    samples: usize,
    (input, from): (&[A], usize),
    (output, to): (&mut [B], usize),
    call: impl Fn(&[A], &mut S, &mut [B]) -> u8,
) -> f64 {
    let passes = LEAST.div_ceil(samples);
    let mut state = S::default();
    let mut refused = 0;
    let start = Instant::now();
    for _ in 0..passes {
        for (input, output) in input.chunks_exact(from).zip(output.chunks_exact_mut(to)) {
            refused |= call(black_box(input), &mut state, black_box(output));
        }
    }
    let time = start.elapsed().as_nanos() as f64;
    black_box(state);
    assert_eq!(refused, 0, "a call that is refused takes no time");
    time / (passes * samples) as f64
}
