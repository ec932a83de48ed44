//! Buffers whose lengths do not fit, or are too long, are refused and nothing is written. The oracle's
//! arrays have fixed lengths, so here it is held to the rule about them first.

use crate::blocks::{State, BYTES, MOST, SAMPLES};
use crate::calls::{Call, DECODE, ENCODE};
use crate::outcome::Outcome;
use crate::parallel::each;
use crate::report::Report;
use crate::runs::random;
use crate::signal::noise;
use std::collections::BTreeSet;
use std::fmt::Debug;

/// What a call returns that refuses its buffers.
const REFUSED: u8 = 3;
/// No length is longer, of bytes or of samples.
const LONGEST: usize = 2 * MOST * SAMPLES + 1;
/// An index above the table stays as it was, too.
const STATES: [State; 4] = [(0, 0), (-12345, 200), (i16::MIN, 255), (i16::MAX, 88)];

pub fn report(progress: bool) -> Report {
    let report = Report::start(progress, "ima4 lengths");
    compare_all(&report, &DECODE, &ENCODE, STATES);
    report
}

/// All lengths of bytes with all lengths of samples, those that fit among them. Compared are the number,
/// the buffer with the room about it, and all numbers of the state.
pub fn compare_all<S: Copy + PartialEq + Debug + Sync>(
    report: &Report,
    decode: &Call<u8, i16, S>,
    encode: &Call<i16, u8, S>,
    states: [S; 4],
) {
    let (bytes, samples) = (random(1, LONGEST), noise(1, LONGEST));
    each(lengths(BYTES).into_iter(), |bytes_len| {
        for samples_len in lengths(SAMPLES) {
            let taken = taken(bytes_len, samples_len);
            let (bytes, samples) = (&bytes[..bytes_len], &samples[..samples_len]);
            compare(report, decode, taken, bytes, samples_len, states);
            compare(report, encode, taken, samples, bytes_len, states);
        }
    });
}

/// One off either side of some numbers of blocks, and what looks like one block or none to whoever
/// counts with 16 bits.
fn lengths(block: usize) -> BTreeSet<usize> {
    let blocks = [0, 1, 2, 7, MOST - 1, MOST, MOST + 1, 2 * MOST];
    let lengths = blocks.map(|blocks| blocks * block).into_iter();
    let beside = |len: usize| [len.saturating_sub(1), len, len + 1];
    let beside = lengths.chain([65_536]).flat_map(beside);
    beside.chain([65_536 + block]).collect()
}

/// The rule: 0 to 1,024 blocks, with 34 bytes and 64 samples for each.
fn taken(bytes: usize, samples: usize) -> bool {
    (0..=1024).any(|blocks| bytes == 34 * blocks && samples == 64 * blocks)
}

fn compare<
    A: Clone + PartialEq,
    B: Copy + PartialEq + Debug + From<u8>,
    S: Copy + PartialEq + Debug,
>(
    report: &Report,
    call: &Call<A, B, S>,
    taken: bool,
    input: &[A],
    len: usize,
    states: [S; 4],
) {
    let before = input.to_vec();
    for state in states {
        let ours = Outcome::of(len, state, |state, out| (call.ours)(input, state, out));
        let expected = Outcome::of(len, state, |state, out| match taken {
            true => (call.oracle)(input, state, out),
            false => REFUSED,
        });
        ours.compare(report, (call.name, input.len(), len, state), &expected);
        assert!(input == before, "a call wrote to what it reads");
    }
}
