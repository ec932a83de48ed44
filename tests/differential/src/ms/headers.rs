//! Short MS blocks, with all that a header can say. For one channel that is every predictor with every
//! index. For two it is every index on the left with every index on the right, and on each side every
//! predictor. For more it is every index in each channel. The encoder's header is the first sample and the
//! index that it is lent.

use super::block::oracle::fitting;
use super::block::{eight, oracle, ours, States};
use super::both;
use crate::blocks::State;
use crate::domain;
use crate::headers::{bodies, one, samples, window};
use crate::parallel::each;
use crate::report::Report;
use crate::signal::Random;

/// Compared are the number and all samples.
pub fn decode(progress: bool) -> Report {
    let report = Report::start(progress, "decode_ms headers");
    let pool = bodies();
    each(0..=u8::MAX, |index| {
        let blocks = mono(index).map(|headers| block(&headers, &pool));
        decode_all::<8, 9>(&report, 1, blocks);
        let blocks = stereo(index).map(|headers| block(&headers, &pool));
        decode_all::<24, 34>(&report, 2, blocks);
        for (headers, len) in many(index) {
            let (channels, mut block) = (headers.len() as u8, vec![0; len]);
            write_block(&mut block, &headers, &pool);
            both::decode(&report, headers, channels, &block, fitting(channels, len));
        }
    });
    report
}

fn decode_all<const BYTES: usize, const SAMPLES: usize>(
    report: &Report,
    channels: u8,
    blocks: impl Iterator<Item = [u8; BYTES]>,
) {
    let inputs = blocks.map(|block| (block, ()));
    let ours = one(|block, _, samples| ours::decode_lenient(channels, block, samples));
    let oracle = one(|block, _, samples| oracle::decode(channels, block, samples));
    report.compare::<_, (u8, (), [i16; SAMPLES])>(inputs, ours, oracle);
}

/// Compared are the number, all bytes and the states of all eight channels.
pub fn encode(progress: bool) -> Report {
    let report = Report::start(progress, "encode_ms headers");
    let pool = samples();
    each(0..=u8::MAX, |index| {
        let inputs = mono(index).map(|headers| (starting(&headers, &pool), lent(&headers)));
        encode_all::<9, 8>(&report, 1, inputs);
        let inputs = stereo(index).map(|headers| (starting(&headers, &pool), lent(&headers)));
        encode_all::<34, 24>(&report, 2, inputs);
        for (headers, len) in many(index) {
            let channels = headers.len() as u8;
            let mut samples = vec![0; fitting(channels, len)];
            write_samples(&mut samples, &headers, &pool);
            both::encode(&report, &headers, channels, &samples, lent(&headers), len);
        }
    });
    report
}

fn encode_all<const SAMPLES: usize, const BYTES: usize>(
    report: &Report,
    channels: u8,
    inputs: impl Iterator<Item = ([i16; SAMPLES], States)>,
) {
    let ours = one(|samples, states, block| ours::encode(channels, samples, states, block));
    let oracle = one(|samples, states, block| oracle::encode(channels, samples, states, block));
    report.compare::<_, (u8, States, [u8; BYTES])>(inputs, ours, oracle);
}

pub fn mono(index: u8) -> impl Iterator<Item = [State; 1]> {
    domain::predictors().map(move |predictor| [(predictor, index)])
}

/// An odd factor leads to every predictor, over all pairs of indices.
pub fn stereo(left: u8) -> impl Iterator<Item = [State; 2]> {
    (0..=u8::MAX).map(move |right| {
        let pair = u16::from_be_bytes([left, right]);
        let predictor = |factor| pair.wrapping_mul(factor) as i16;
        [(predictor(40_503), left), (predictor(25_717), right)]
    })
}

/// The headers of three to eight channels, and the length of a block. Each channel in turn has this index, and
/// the others have any.
pub fn many(index: u8) -> impl Iterator<Item = (Vec<State>, usize)> {
    let mut random = Random::new(index.into()).map(|number| ((number >> 16) as i16, number as u8));
    let turns = (3..=8).flat_map(|channels| (0..64 * channels).map(move |turn| (channels, turn)));
    turns.map(move |(channels, turn)| {
        let mut headers: Vec<State> = random.by_ref().take(channels).collect();
        headers[turn % channels].1 = index;
        let groups = turn / channels % 4;
        (headers, 4 * channels * (1 + groups))
    })
}

pub fn block<const BYTES: usize>(headers: &[State], pool: &[u8]) -> [u8; BYTES] {
    let mut block = [0; BYTES];
    write_block(&mut block, headers, pool);
    block
}

/// A block with these headers. The fourth byte of each, which is not read, takes all values.
pub fn write_block(block: &mut [u8], headers: &[State], pool: &[u8]) {
    let turn = turn(headers);
    let (head, body) = block.split_at_mut(4 * headers.len());
    for (head, (predictor, index)) in head.chunks_exact_mut(4).zip(headers) {
        let [low, high] = predictor.to_le_bytes();
        head.copy_from_slice(&[low, high, *index, low ^ index]);
    }
    body.copy_from_slice(window(pool, turn, body.len()));
}

fn starting<const SAMPLES: usize>(headers: &[State], pool: &[i16]) -> [i16; SAMPLES] {
    let mut samples = [0; SAMPLES];
    write_samples(&mut samples, headers, pool);
    samples
}

/// Samples of which the first are the predictors of these headers.
fn write_samples(samples: &mut [i16], headers: &[State], pool: &[i16]) {
    samples.copy_from_slice(window(pool, turn(headers), samples.len()));
    for (first, (predictor, _)) in samples.iter_mut().zip(headers) {
        *first = *predictor;
    }
}

/// States with the indices of these headers. Their predictors, and the whole of a state that is not
/// used, are to make no difference, so they vary.
fn lent(headers: &[State]) -> States {
    let (first, index) = headers[0];
    let mut states = eight([(first, index), (first, !index)]);
    for (state, &(predictor, index)) in states.iter_mut().zip(headers) {
        *state = (!predictor, index);
    }
    states
}

/// A number for the last two headers, so that what follows them varies.
fn turn(headers: &[State]) -> usize {
    let last = &headers[headers.len().saturating_sub(2)..];
    last.iter().fold(0, |turn, &(predictor, index)| {
        turn << 24 | usize::from(predictor as u16) << 8 | usize::from(index)
    })
}
