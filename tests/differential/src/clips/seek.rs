//! A seek index. Building it counts as decoding the run does. Decoding by it counts from 0 at the block where it
//! starts, however far before it a state is kept.

use super::plain::{self, State};
use super::{expected, ours, COUNTS};
use crate::blocks::{self, oracle, BYTES, MOST, SAMPLES};
use crate::outcome::Outcome;
use crate::parallel::each;
use crate::report::Report;
use crate::seek::calls::plain::record_len;
use crate::seek::lengths;
use crate::seek::runs::{contents, RAW};
use std::collections::BTreeSet;
use std::fmt::Debug;

type Index = fn(&[u8], u8, &mut State, &mut [u8]) -> u8;
type Decode = fn(&[u8], &[u8], usize, &mut State, &mut [i16]) -> u8;

const EVERY: [u8; 4] = [1, 2, 3, 64];
const BLOCKS: [usize; 11] = [MOST, 130, 65, 64, 63, 10, 4, 3, 2, 1, 0];
const STATES: [blocks::State; 3] = [RAW, (0, 0), (i16::MAX, 88)];
/// What the state is before a call that only writes it, for a refused one to leave.
const LENT: State = (0x5a5a, 0x5a, 0x5a5a_5a5a);

/// Compared are the number, all that comes out, and all three numbers of the state.
pub fn reports(progress: bool) -> [Report; 3] {
    let indexed = Report::start(progress, "ima4_index clips");
    let decoded = Report::start(progress, "decode_ima4_from clips");
    let parts = BLOCKS.into_iter();
    let parts = parts.flat_map(|blocks| EVERY.map(|every| (blocks, every)));
    each(parts, |(blocks, every)| {
        for state in STATES {
            for (name, bytes) in contents(every.into(), blocks, state) {
                let len = record_len(blocks, every);
                let records = COUNTS.map(|clipped| {
                    let state = (state.0, state.1, clipped);
                    index(&indexed, name, &bytes, every, state, len)
                });
                decode(&decoded, (name, every), &bytes, &records[0], state);
            }
        }
    });
    [indexed, decoded, unfitting(progress)]
}

/// The call is lent a record of that length. What the plain loop wrote there is handed back.
fn index(
    report: &Report,
    name: &str,
    bytes: &[u8],
    every: u8,
    state: State,
    len: usize,
) -> Vec<u8> {
    let by = |index: Index| {
        Outcome::of(len, state, |state, record| {
            index(bytes, every, state, record)
        })
    };
    let expected = by(expected::index);
    let input = ("index", name, bytes.len(), every, state, len);
    by(ours::index).compare(report, input, &expected);
    expected.buffer().to_vec()
}

/// From each block on there comes out what the oracle decodes there from the first block on. The count is that of
/// the steps from there on, of which each block has as many as in the whole run.
fn decode(report: &Report, name: impl Debug, bytes: &[u8], record: &[u8], state: blocks::State) {
    let blocks = bytes.len() / BYTES;
    let (mut end, mut whole) = (state, vec![0; blocks * SAMPLES]);
    oracle::decode(bytes, &mut end, &mut whole);
    let clips = clips(bytes, state);
    for from in froms(blocks) {
        let there = &whole[from * SAMPLES..];
        let ours = Outcome::of(there.len(), LENT, |state, samples| {
            ours::decode_from(bytes, record, from, state, samples)
        });
        let expected = Outcome::of(there.len(), LENT, |state, samples| {
            *state = (end.0, end.1, clips[from..].iter().sum());
            samples.copy_from_slice(there);
            0
        });
        ours.compare(report, (&name, blocks, state, from), &expected);
    }
}

/// How many steps of each block clip, in the whole run.
fn clips(bytes: &[u8], (predictor, index): blocks::State) -> Vec<u32> {
    let mut state = (predictor, index, 0);
    let block = |block: &[u8]| {
        state.2 = 0;
        plain::decoded(block, &mut state);
        state.2
    };
    bytes.chunks_exact(BYTES).map(block).collect()
}

/// Of a long run the first blocks, the last ones, and some in between.
fn froms(blocks: usize) -> BTreeSet<usize> {
    let some = [0, 1, 2, 3, 63, 64, 65, blocks / 2, blocks - blocks.min(3)];
    let last = blocks.saturating_sub(2)..blocks;
    match blocks {
        0..=65 => (0..blocks).collect(),
        _ => some.into_iter().chain(last).collect(),
    }
}

/// All lengths, distances, records and blocks, those that are refused and those that fit.
fn unfitting(progress: bool) -> Report {
    let report = Report::start(progress, "seek clips lengths");
    let indexed = |bytes: &[u8], every, record: &[u8]| {
        let state = (-12345, 200, u32::MAX - 1);
        index(&report, "random", bytes, every, state, record.len());
    };
    let decoded = |every, bytes: &[u8], record: &[u8], from, lengths: BTreeSet<usize>| {
        for len in lengths {
            let by = |decode: Decode| {
                Outcome::of(len, LENT, |state, samples| {
                    decode(bytes, record, from, state, samples)
                })
            };
            let input = ("decode", bytes.len(), every, record.len(), from, len);
            by(ours::decode_from).compare(&report, input, &by(expected::decode_from));
        }
    };
    lengths::each_length(indexed, decoded);
    report
}
