//! Every distance at which states can be kept, with runs of no block, of one, of about as many as that, and of
//! the most. A decoder jumps to their blocks, and blocks are replaced from there on: in a short run that is
//! every block.

use super::both::{self, lending, LENT};
use super::calls::{ours, plain};
use crate::blocks::{oracle, State, BYTES, MOST, SAMPLES};
use crate::outcome::Outcome;
use crate::parallel::each;
use crate::report::Report;
use crate::runs::{random, spoilt};
use crate::signal::speech;
use std::collections::BTreeSet;

/// The longest run of which every block is gone over.
const SHORT: usize = 65;
/// Among them are indices above the table, and predictors that no header has room for.
const STATES: [State; 6] = [
    RAW,
    (-12345, 44),
    (0, 0),
    (i16::MIN, 255),
    (i16::MAX, 88),
    (-777, 255),
];
pub const RAW: State = (12345, 200);

/// Compared are the number, all that comes out, and both numbers of the state.
pub fn reports(progress: bool) -> [Report; 3] {
    let indexed = Report::start(progress, "ima4_index runs");
    let decoded = Report::start(progress, "decode_ima4_from runs");
    let replaced = Report::start(progress, "ima4_reindex runs");
    each((1..=64).flat_map(parts), |(every, blocks)| {
        for &state in states(every, blocks) {
            let contents = contents(every.into(), blocks, state);
            let next = contents.iter().cycle().skip(1);
            for ((name, bytes), (_, others)) in contents.iter().zip(next) {
                let run = Run {
                    name,
                    bytes,
                    every,
                    state,
                };
                let record = run.index(&indexed);
                run.decode(&decoded, &record);
                run.replace(&replaced, &record, others);
            }
        }
    });
    [indexed, decoded, replaced]
}

/// The distance with several numbers of blocks.
fn parts(every: u8) -> impl Iterator<Item = (u8, usize)> {
    let about = usize::from(every);
    let blocks = BTreeSet::from([0, 1, about - 1, about, about + 1, SHORT, MOST]);
    blocks.into_iter().map(move |blocks| (every, blocks))
}

/// All of them, but for a run of many more blocks than the distance two.
fn states(every: u8, blocks: usize) -> &'static [State] {
    if blocks <= usize::from(every) + 1 {
        &STATES
    } else {
        &STATES[..2]
    }
}

/// Bytes at random. What the oracle encodes from the state, so that a decoder keeps its own at most headers. That
/// with a first header at which the state would be kept if its index were 88, and that with some wrong bits.
pub fn contents(seed: u64, blocks: usize, state: State) -> [(&'static str, Vec<u8>); 4] {
    let (mut end, mut encoded) = (state, vec![0; blocks * BYTES]);
    oracle::encode(&speech(seed, blocks * SAMPLES), &mut end, &mut encoded);
    let mut near = encoded.clone();
    if let [first, second, ..] = &mut near[..] {
        let [high, low] = state.0.to_be_bytes();
        (*first, *second) = (high, low & 0x80 | 88);
    }
    [
        ("random", random(seed, blocks * BYTES)),
        ("near", near),
        ("spoilt", spoilt(&encoded, seed)),
        ("encoded", encoded),
    ]
}

struct Run<'a> {
    name: &'static str,
    bytes: &'a [u8],
    every: u8,
    state: State,
}

impl Run<'_> {
    fn index(&self, report: &Report) -> Vec<u8> {
        let len = plain::record_len(self.blocks(), self.every);
        both::index(report, self.name, self.bytes, self.every, self.state, len)
    }

    /// From each block on there comes out what the oracle decodes there from the first block on, and the state
    /// behind the run.
    fn decode(&self, report: &Report, record: &[u8]) {
        let before = (self.bytes.to_vec(), record.to_vec());
        let (mut end, mut whole) = (self.state, vec![0; self.blocks() * SAMPLES]);
        oracle::decode(self.bytes, &mut end, &mut whole);
        for from in self.froms() {
            let there = &whole[from * SAMPLES..];
            let ours = Outcome::of(there.len(), LENT, |state, samples| {
                ours::decode(self.bytes, record, from, state, samples)
            });
            let expected = Outcome::of(there.len(), LENT, |state, samples| {
                *state = end;
                samples.copy_from_slice(there);
                0
            });
            ours.compare(report, self.input(from), &expected);
        }
        let after = (self.bytes.to_vec(), record.to_vec());
        assert!(after == before, "a call wrote to what it reads");
    }

    /// With others in place of the blocks from one on, the index becomes that of the new run.
    fn replace(&self, report: &Report, record: &[u8], others: &[u8]) {
        for from in self.froms() {
            let place = from * BYTES;
            let bytes = [&self.bytes[..place], &others[place..]].concat();
            let ours = lending(record, |record| ours::reindex(&bytes, from, record));
            let expected = lending(record, |record| {
                let mut state = self.state;
                plain::index(&bytes, self.every, &mut state, record)
            });
            ours.compare(report, self.input(from), &expected);
        }
    }

    fn blocks(&self) -> usize {
        self.bytes.len() / BYTES
    }

    /// Of a long run the first blocks, the last ones, some in between, and those about kept states.
    fn froms(&self) -> BTreeSet<usize> {
        let (blocks, every) = (self.blocks(), usize::from(self.every));
        if blocks <= SHORT {
            return (0..blocks).collect();
        }
        let last = (blocks - 1) / every * every;
        let about = [1, every, blocks / 2, last, blocks - 2];
        about
            .into_iter()
            .flat_map(|at| at - 1..=at + 1)
            .filter(|&at| at < blocks)
            .collect()
    }

    fn input(&self, from: usize) -> (&str, usize, u8, State, usize) {
        (self.name, self.blocks(), self.every, self.state, from)
    }
}
