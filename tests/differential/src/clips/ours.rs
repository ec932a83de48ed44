//! Our calls, with states that count.

use super::plain::State;
use crate::ffi;
use std::array;

/// Of eight channels.
pub type States = [State; 8];

#[inline(always)]
pub fn decode(nibble: u8, (mut predictor, mut index, mut clipped): State) -> (i16, State) {
    let sample = ffi::decode_adpcm_ima(nibble, (&mut predictor, &mut index, &mut clipped));
    (sample, (predictor, index, clipped))
}

#[inline(always)]
pub fn encode(sample: i16, (mut predictor, mut index, mut clipped): State) -> (u8, State) {
    let nibble = ffi::encode_adpcm_ima(sample, (&mut predictor, &mut index, &mut clipped));
    (nibble, (predictor, index, clipped))
}

pub fn decode_run(bytes: &[u8], state: &mut State, samples: &mut [i16]) -> u8 {
    ffi::decode_ima4(bytes, lent(state), samples)
}

pub fn encode_run(samples: &[i16], state: &mut State, bytes: &mut [u8]) -> u8 {
    ffi::encode_ima4(samples, lent(state), bytes)
}

pub fn index(bytes: &[u8], every: u8, state: &mut State, record: &mut [u8]) -> u8 {
    ffi::ima4_index(bytes, every, lent(state), record)
}

pub fn decode_from(
    bytes: &[u8],
    record: &[u8],
    from: usize,
    state: &mut State,
    samples: &mut [i16],
) -> u8 {
    ffi::decode_ima4_from(bytes, record, from, lent(state), samples)
}

pub fn decode_block(channels: u8, block: &[u8], clipped: &mut [u32; 8], samples: &mut [i16]) -> u8 {
    ffi::decode_ms(channels, block, samples, clipped)
}

pub fn decode_block_leniently(
    channels: u8,
    block: &[u8],
    clipped: &mut [u32; 8],
    samples: &mut [i16],
) -> u8 {
    ffi::decode_ms_lenient(channels, block, samples, clipped)
}

pub fn encode_block(channels: u8, samples: &[i16], states: &mut States, block: &mut [u8]) -> u8 {
    let mut predictors = states.map(|(predictor, ..)| predictor);
    let mut indices = states.map(|(_, index, _)| index);
    let mut clipped = states.map(|(.., clipped)| clipped);
    let lent = (&mut predictors, &mut indices, &mut clipped);
    let number = ffi::encode_ms(channels, samples, lent, block);
    *states = array::from_fn(|place| (predictors[place], indices[place], clipped[place]));
    number
}

fn lent((predictor, index, clipped): &mut State) -> ffi::Lent<'_> {
    (predictor, index, clipped)
}
