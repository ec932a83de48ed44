//! Records of which one byte is another, each byte in turn, and records of states that nobody kept. A head that
//! does not fit is refused. Whatever states there are, they are believed.

use super::both;
use super::calls::plain;
use super::runs::{contents, RAW};
use crate::blocks::{BYTES, SAMPLES};
use crate::parallel::each;
use crate::report::Report;
use crate::runs::random;
use std::collections::BTreeSet;
use std::fmt::Debug;

/// How many blocks there are, and how far apart their states are kept. The long ones come first, for they take
/// longest.
const RUNS: [(usize, u8); 14] = [
    (66, 33),
    (65, 64),
    (33, 8),
    (9, 9),
    (9, 5),
    (9, 4),
    (9, 1),
    (6, 3),
    (3, 2),
    (2, 1),
    (1, 64),
    (1, 1),
    (0, 64),
    (0, 1),
];

/// Compared are the number, the state, and the buffer with the room about it.
pub fn report(progress: bool) -> Report {
    let report = Report::start(progress, "seek damage");
    each(RUNS.into_iter(), |(blocks, every)| {
        for (name, bytes) in contents(every.into(), blocks, RAW) {
            let record = built(&bytes, every);
            for (place, &byte) in record.iter().enumerate() {
                for value in values(blocks, place, byte) {
                    let mut damaged = record.clone();
                    damaged[place] = value;
                    compare(&report, (name, place, value), &bytes, &damaged);
                }
            }
            for seed in 1..=8 {
                let states = random(seed, record.len() - 4);
                let record = [&record[..4], &states].concat();
                compare(&report, (name, "states", seed), &bytes, &record);
            }
        }
    });
    report
}

fn built(bytes: &[u8], every: u8) -> Vec<u8> {
    let mut record = vec![0; plain::record_len(bytes.len() / BYTES, every)];
    let mut state = RAW;
    let number = plain::index(bytes, every, &mut state, &mut record);
    assert_eq!(number, 0, "an index of {every} is built");
    record
}

/// What a byte of the record becomes. In the head of a short run that is all there is.
fn values(blocks: usize, place: usize, byte: u8) -> BTreeSet<u8> {
    if blocks < 10 && place < 4 {
        return (0..=u8::MAX).collect();
    }
    let beside = [byte.wrapping_sub(1), byte.wrapping_add(1)];
    [0, 255, byte ^ 1, byte ^ 128]
        .into_iter()
        .chain(beside)
        .collect()
}

/// From every block, and from behind the last.
fn compare(report: &Report, name: impl Debug, bytes: &[u8], record: &[u8]) {
    let blocks = bytes.len() / BYTES;
    for from in 0..=blocks {
        let samples = (blocks - from) * SAMPLES;
        both::decode(report, &name, bytes, record, from, samples);
        both::reindex(report, &name, bytes, record, from);
    }
}
