//! Blocks of one channel with two nibbles: every nibble from every state, and every pair of nibbles from
//! the states about each limit at which the encoder would write another.

use super::both::compare_all;
use crate::domain;
use crate::nibble::oracle;
use crate::parallel::each;
use crate::report::Report;
use std::collections::BTreeSet;

/// Compared are both numbers and all bytes.
pub fn report(progress: bool) -> Report {
    let report = Report::start(progress, "repack_ms nibbles");
    each(0..=u8::MAX, |index| {
        let pairs = predictors(index).into_iter().flat_map(|predictor| {
            let pairs = 0..=u8::MAX;
            pairs.map(move |pair| block(predictor, index, pair))
        });
        compare_all::<5>(&report, 1, pairs);
    });
    // an index above 88 was one of those above, and is read as 88
    each(0..=88, |index| {
        let nibbles = domain::predictors().flat_map(|predictor| {
            let nibbles = 0..16;
            nibbles.map(move |nibble| block(predictor, index, nibble | second(predictor, nibble)))
        });
        compare_all::<5>(&report, 1, nibbles);
    });
    report
}

fn block(predictor: i16, index: u8, pair: u8) -> [u8; 5] {
    let [low, high] = predictor.to_le_bytes();
    [low, high, index, 0, pair]
}

/// A nibble behind the first, in the upper half of the byte. It takes all values, and shows which index
/// the first left.
fn second(predictor: i16, nibble: u8) -> u8 {
    let turn = predictor as u8 ^ nibble;
    turn.wrapping_mul(0xb5) & 0xf0
}

/// All near the ends and near zero, some in between, and those beside each limit: a sum of parts, with
/// the eighth of the step that is added to it and without, away from either end.
fn predictors(index: u8) -> BTreeSet<i16> {
    let near = [-32768..=-32700, -32..=32, 32700..=32767]
        .into_iter()
        .flatten();
    let between = (-32768..=32767).step_by(509);
    let limits = (0..8).flat_map(|nibble| {
        let d = reach(index, nibble);
        let m = d - reach(index, 0);
        [32767 - d, 32767 - m, -32768 + d, -32768 + m]
    });
    let beside = limits.flat_map(|limit| limit - 1..=limit + 1);
    let all = near.chain(between).chain(beside);
    all.filter_map(|predictor| predictor.try_into().ok())
        .collect()
}

/// How far a positive nibble moves the predictor, where it meets no end.
fn reach(index: u8, nibble: u8) -> i32 {
    let (sample, ..) = oracle::decode((nibble, i16::MIN, index));
    i32::from(sample) - i32::from(i16::MIN)
}
