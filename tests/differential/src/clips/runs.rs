//! Runs of ima4 blocks, of several contents, from several states and counts. In some of them the decoder keeps
//! its state at each header, and in others it takes the header's.

use super::plain::State;
use super::{expected, ours, COUNTS};
use crate::blocks::{self, BYTES, MOST, SAMPLES};
use crate::calls::Call;
use crate::parallel::each;
use crate::report::Report;
use crate::runs::{both, contents, random, spoilt, STATES};
use crate::{cuts, lengths};
use std::iter;

const DECODE: Call<u8, i16, State> = Call {
    name: "decode",
    ours: ours::decode_run,
    oracle: expected::decode_run,
    from: BYTES,
    to: SAMPLES,
};

const ENCODE: Call<i16, u8, State> = Call {
    name: "encode",
    ours: ours::encode_run,
    oracle: expected::encode_run,
    from: SAMPLES,
    to: BYTES,
};

/// Compared are the number, all that comes out, and all three numbers of the state.
pub fn reports(progress: bool) -> [Report; 5] {
    let encoded = Report::start(progress, "encode_ima4 clips");
    let decoded = Report::start(progress, "decode_ima4 clips");
    let returned = Report::start(progress, "ima4 clips both ways");
    let parts = [MOST, 0, 1, 2, 7].into_iter();
    let parts = parts.flat_map(|blocks| [1, 2].map(|seed| (blocks, seed)));
    each(parts, |(blocks, seed)| {
        for (name, samples) in contents(seed, blocks * SAMPLES) {
            let name = (name, seed, blocks);
            for (turn, state) in states().enumerate() {
                let bytes = both(&encoded, name, &ENCODE, &samples, state);
                if state.1 <= 88 {
                    both_ways(&returned, name, &samples, state);
                }
                // from the same state, which is kept if its index is at most 88, and from another one
                let other = counting(STATES[turn % 8])[turn / 8];
                for state in [state, other] {
                    both(&decoded, ("encoded", name), &DECODE, &bytes, state);
                    let bytes = spoilt(&bytes, seed);
                    both(&decoded, ("spoilt", name), &DECODE, &bytes, state);
                }
            }
        }
        let bytes = random(seed, blocks * BYTES);
        for state in states() {
            both(&decoded, ("random", seed, blocks), &DECODE, &bytes, state);
        }
    });
    let cut = cut(progress);
    let unfitting = Report::start(progress, "ima4 clips lengths");
    lengths::compare_all(&unfitting, &DECODE, &ENCODE, counting((-12345, 200)));
    [encoded, decoded, returned, cut, unfitting]
}

/// All states with all counts.
fn states() -> impl Iterator<Item = State> {
    STATES.into_iter().flat_map(counting)
}

fn counting((predictor, index): blocks::State) -> [State; 4] {
    COUNTS.map(|clipped| (predictor, index, clipped))
}

/// What ours encodes, ours decodes from the same state: both end in the same one, with the same count.
fn both_ways(
    report: &Report,
    name @ (.., blocks): (&str, u64, usize),
    samples: &[i16],
    start: State,
) {
    let (mut encoder, mut bytes) = (start, vec![0; blocks * BYTES]);
    ours::encode_run(samples, &mut encoder, &mut bytes);
    let (mut decoder, mut decoded) = (start, vec![0; blocks * SAMPLES]);
    ours::decode_run(&bytes, &mut decoder, &mut decoded);
    report.compare(iter::once((name, start)), |_| decoder, |_| encoder);
}

/// A run in two parts counts what the whole run counts.
fn cut(progress: bool) -> Report {
    let report = Report::start(progress, "ima4 clips cuts");
    let edges = [0, 1, 2, 3, 4, 5, 6, 7];
    for (name, samples) in contents(9, 7 * SAMPLES) {
        for state in states() {
            let bytes = cuts::compare(&report, name, &ENCODE, &samples, state, &edges);
            cuts::compare(&report, name, &DECODE, &bytes, state, &edges);
        }
    }
    report
}
