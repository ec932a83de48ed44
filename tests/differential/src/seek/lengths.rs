//! Bytes, records and samples of lengths that fit and of others, heads that say something else, and distances
//! and blocks that are none, alone and together. The number tells what is refused first, and what a refused
//! call was lent is left as it was.

use super::both;
use super::calls::plain;
use crate::blocks::{State, BYTES, MOST, SAMPLES};
use crate::parallel::each;
use crate::report::Report;
use crate::runs::random;
use std::collections::BTreeSet;

/// No run is longer. To whoever counts blocks with 16 bits it has one.
const LONGEST: usize = 65_537 * BYTES;
const EVERY: [u8; 9] = [0, 1, 2, 3, 63, 64, 65, 128, 255];
/// An index above the table stays as it was, too.
const STATES: [State; 2] = [(-12345, 200), (i16::MAX, 88)];

/// Compared are the number, the state, and the buffer with the room about it.
pub fn report(progress: bool) -> Report {
    let report = Report::start(progress, "seek lengths");
    let indexed = |bytes: &[u8], every, record: &[u8]| {
        for state in STATES {
            both::index(&report, "", bytes, every, state, record.len());
        }
    };
    let decoded = |every, bytes: &[u8], record: &[u8], from, lengths: BTreeSet<usize>| {
        both::reindex(&report, every, bytes, record, from);
        for len in lengths {
            both::decode(&report, every, bytes, record, from, len);
        }
    };
    each_length(indexed, decoded);
    report
}

/// Calls `indexed` on runs, distances and records, and `decoded` on these with blocks to start from and lengths
/// of samples.
pub fn each_length(
    indexed: impl Fn(&[u8], u8, &[u8]) + Sync,
    decoded: impl Fn(u8, &[u8], &[u8], usize, BTreeSet<usize>) + Sync,
) {
    let all = random(1, LONGEST);
    let parts = runs()
        .into_iter()
        .flat_map(|len| EVERY.map(|every| (len, every)));
    each(parts, |(len, every)| {
        let (bytes, blocks) = (&all[..len], len / BYTES % 65_536);
        for record in records(blocks, every) {
            indexed(bytes, every, &record);
            for from in froms(blocks) {
                decoded(every, bytes, &record, from, samples(blocks, from));
            }
        }
    });
    assert!(all == random(1, LONGEST), "a call wrote to what it reads");
}

/// One off either side of some numbers of blocks, and what looks short to whoever counts with 16 bits.
fn runs() -> BTreeSet<usize> {
    let blocks = [0, 1, 2, 7, MOST - 1, MOST, MOST + 1, 2 * MOST];
    let lengths = blocks.map(|blocks| blocks * BYTES).into_iter();
    let beside = |len: usize| [len.saturating_sub(1), len, len + 1];
    let short = [65_536, 65_536 + BYTES, LONGEST];
    lengths.flat_map(beside).chain(short).collect()
}

/// With the head that fits: short ones, the one that fits, and others about it. And that one with other heads.
fn records(blocks: usize, every: u8) -> Vec<Vec<u8>> {
    let [high, low, version, _] = plain::head(blocks, every.max(1));
    let fitting = plain::record_len(blocks, every.max(1));
    let states = random(2, fitting + 65_536);
    let record = |head: [u8; 4], len| {
        let record = head.into_iter().chain(states.iter().copied());
        record.take(len).collect()
    };
    let about = fitting - 3..=fitting + 3;
    let lengths = (0..=8).chain(about).chain([fitting + 65_536]);
    let lengths: BTreeSet<usize> = lengths.collect();
    let heads = [
        [high, low.wrapping_sub(1), version, every],
        [high, low.wrapping_add(1), version, every],
        // as if the length counted itself
        [high, low.wrapping_add(2), version, every],
        [high.wrapping_add(1), low, version, every],
        [low, high, version, every],
        [high, low, 0, every],
        [high, low, 2, every],
    ];
    let fit = |len| record([high, low, version, every], len);
    let other = |head| record(head, fitting);
    lengths
        .into_iter()
        .map(fit)
        .chain(heads.map(other))
        .collect()
}

/// The last blocks and what is behind them. And blocks far behind that look like the last one: to whoever counts
/// with 16 bits, or with 32, or counts samples or bytes with 64.
fn froms(blocks: usize) -> BTreeSet<usize> {
    let first = if blocks < 10 { 0 } else { blocks - 2 };
    let far = [1 << 16, 1 << 32, 1 << 58, 1 << 63].map(|far| far + blocks.saturating_sub(1));
    let most = usize::MAX - 1..=usize::MAX;
    (first..=blocks + 1).chain(far).chain(most).collect()
}

/// As many as fit, and one off, a block off, and twice that; none; one block, and what looks like one to whoever
/// counts with 16 bits.
fn samples(blocks: usize, from: usize) -> BTreeSet<usize> {
    let fitting = SAMPLES * blocks.saturating_sub(from);
    let off = |by: usize| [fitting.saturating_sub(by), fitting + by];
    let several = [0, 1, SAMPLES, fitting].into_iter().flat_map(off);
    let wraps = (fitting == SAMPLES).then_some(65_536 + SAMPLES);
    several.chain([0, SAMPLES]).chain(wraps).collect()
}
