//! One block of ima4. The decoder's state is at and beside every limit of the rule by which it is kept:
//! its index is the header's, lowered to 88, and its predictor is within 127 of the header's. The encoder
//! writes its state into the header, so it starts from every predictor there is.

use crate::blocks::{oracle, ours, State, BYTES, SAMPLES};
use crate::domain;
use crate::parallel::each;
use crate::report::Report;
use crate::runs::random;
use crate::signal::{noise, speech};
use std::collections::BTreeSet;

/// Blocks to take bodies and samples from: so many of speech, and so many of noise.
const POOL: usize = 1024;

/// All 65,536 headers, each from every state of `states`, with bodies that vary. Compared are the number,
/// the 64 samples and both numbers of the state.
pub fn decode(progress: bool) -> Report {
    let report = Report::start(progress, "decode_ima4");
    let bodies = bodies();
    each(0..=u16::MAX, |header| {
        let input = |(k, state)| {
            let mut block = [0; BYTES];
            block[..2].copy_from_slice(&header.to_be_bytes());
            let body = window(&bodies, usize::from(header) * 127 + k, BYTES - 2);
            block[2..].copy_from_slice(body);
            (block, state)
        };
        let inputs = states(header).into_iter().enumerate().map(input);
        let (ours, oracle) = (one(ours::decode), one(oracle::decode));
        report.compare::<_, (u8, State, [i16; SAMPLES])>(inputs, ours, oracle);
    });
    report
}

/// All 65,536 predictors, each with some indices, inside the table and above it, and with samples that
/// vary. Compared are the number, the 34 bytes and both numbers of the state.
pub fn encode(progress: bool) -> Report {
    let report = Report::start(progress, "encode_ima4");
    let samples = samples();
    each(domain::predictors(), |predictor| {
        let input = |index: u8| {
            let turn = usize::from(predictor as u16) * 127 + usize::from(index);
            let mut block = [0; SAMPLES];
            block.copy_from_slice(window(&samples, turn, SAMPLES));
            (block, (predictor, index))
        };
        let inputs = [0, 1, 44, 87, 88, 89, 127, 128, 200, 255].into_iter();
        let (ours, oracle) = (one(ours::encode), one(oracle::encode));
        report.compare::<_, (u8, State, [u8; BYTES])>(inputs.map(input), ours, oracle);
    });
    report
}

/// All predictors with all indices, each state once.
fn states(header: u16) -> BTreeSet<State> {
    let indices = indices(header);
    let with = |predictor| indices.iter().map(move |&index| (predictor, index));
    predictors(header).flat_map(with).collect()
}

/// Both sides of each limit, the header's own and beside it, zero, and the ends.
fn predictors(header: u16) -> impl Iterator<Item = i16> {
    let own = (header & 0xff80) as i16;
    let away = [-129, -128, -127, -126, -1, 0, 1, 126, 127, 128, 129];
    let near = away.map(|away| own.saturating_add(away));
    near.into_iter().chain([i16::MIN, 0, i16::MAX])
}

/// The header's index lowered to 88, and beside that; as it stands, and with the bit above it, which a
/// header has no room for; and some others.
fn indices(header: u16) -> [u8; 9] {
    let raw = (header & 0x7f) as u8;
    let lowered = raw.min(88);
    let below = lowered.saturating_sub(1);
    [lowered, below, lowered + 1, raw, raw + 128, 0, 89, 200, 255]
}

/// One side's call on one block, as a function of plain values.
pub fn one<A, S, B: Copy + From<u8>, const N: usize, const M: usize>(
    run: impl Fn(&[A], &mut S, &mut [B]) -> u8,
) -> impl Fn(([A; N], S)) -> (u8, S, [B; M]) {
    move |(block, mut state)| {
        // what is not written is seen
        let mut out = [B::from(0x5a); M];
        let number = run(&block, &mut state, &mut out);
        (number, state, out)
    }
}

/// In speech most steps are small. In noise they are large, and samples are clipped.
pub fn samples() -> Vec<i16> {
    let len = POOL * SAMPLES;
    [speech(1, len), noise(2, len)].concat()
}

/// What speech is encoded to, and bytes at random, so that every nibble is met in every place.
pub fn bodies() -> Vec<u8> {
    let mut bytes = vec![0; POOL * BYTES];
    oracle::encode(&samples()[..POOL * SAMPLES], &mut (0, 0), &mut bytes);
    bytes.extend(random(3, POOL * BYTES));
    bytes
}

/// A stretch of the pool, elsewhere with the next turn.
pub fn window<T>(pool: &[T], turn: usize, len: usize) -> &[T] {
    let start = turn * 37 % (pool.len() - len);
    &pool[start..start + len]
}
