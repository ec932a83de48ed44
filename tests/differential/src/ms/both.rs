//! A call on an MS block, made by both sides and compared: the number, the buffer that is written with
//! the room about it, and the encoder's states. The buffer that is read stays as it was.

use super::block::{oracle, ours, States};
use crate::outcome::Outcome;
use crate::report::Report;
use std::fmt::Debug;

pub type Decode = fn(u8, &[u8], &mut [i16]) -> u8;
pub type Encode = fn(u8, &[i16], &mut States, &mut [u8]) -> u8;

/// By lenient reading, as the oracle reads. The call is lent a buffer for so many samples.
pub fn decode(report: &Report, name: impl Debug, channels: u8, block: &[u8], samples_len: usize) {
    let before = block.to_vec();
    let by = |decode: Decode| {
        Outcome::of(samples_len, (), |_, samples| {
            decode(channels, block, samples)
        })
    };
    let input = ("decode", channels, block.len(), samples_len, name);
    by(ours::decode_lenient).compare(report, input, &by(oracle::decode));
    assert!(block == before, "a call wrote to what it reads");
}

/// The call is lent a buffer for so many bytes. What the oracle wrote there is handed back.
pub fn encode(
    report: &Report,
    name: impl Debug,
    channels: u8,
    samples: &[i16],
    states: States,
    block_len: usize,
) -> Vec<u8> {
    let before = samples.to_vec();
    let by = |encode: Encode| {
        Outcome::of(block_len, states, |states, block| {
            encode(channels, samples, states, block)
        })
    };
    let input = ("encode", channels, samples.len(), states, block_len, name);
    let oracle = by(oracle::encode);
    by(ours::encode).compare(report, input, &oracle);
    assert!(samples == before, "a call wrote to what it reads");
    oracle.buffer().to_vec()
}
