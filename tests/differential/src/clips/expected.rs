//! What our calls on runs and blocks are held to: the oracle for the number, for what is written and for two
//! numbers of a state, and the plain loop for the count. A refused call leaves all as it was. The plain loop has
//! the other two numbers as well, and they have to be the oracle's.

use super::ours::States;
use super::plain::{self, State};
use crate::blocks::{self, oracle, BYTES};
use crate::ms::block::oracle as ms_oracle;
use crate::seek::calls::plain as seek_plain;

/// Of whole blocks, as the oracle is asked.
pub fn decode_run(bytes: &[u8], state: &mut State, samples: &mut [i16]) -> u8 {
    let mut two = (state.0, state.1);
    oracle::decode(bytes, &mut two, samples);
    plain::decoded(bytes, state);
    agree(*state, two);
    0
}

pub fn encode_run(samples: &[i16], state: &mut State, bytes: &mut [u8]) -> u8 {
    let mut two = (state.0, state.1);
    oracle::encode(samples, &mut two, bytes);
    plain::encoded(bytes, state);
    agree(*state, two);
    0
}

pub fn index(bytes: &[u8], every: u8, state: &mut State, record: &mut [u8]) -> u8 {
    let mut two = (state.0, state.1);
    let number = seek_plain::index(bytes, every, &mut two, record);
    if number == 0 {
        plain::decoded(bytes, state);
        agree(*state, two);
    }
    number
}

pub fn decode_from(
    bytes: &[u8],
    record: &[u8],
    from: usize,
    state: &mut State,
    samples: &mut [i16],
) -> u8 {
    let mut two = (state.0, state.1);
    let number = seek_plain::decode(bytes, record, from, &mut two, samples);
    if number == 0 {
        *state = jumped(bytes, record, from);
        agree(*state, two);
    }
    number
}

/// From the state that is kept at the block or before it. What is decoded for the state of the block does not count.
fn jumped(bytes: &[u8], record: &[u8], from: usize) -> State {
    let every = usize::from(record[3]);
    let (predictor, index) = seek_plain::kept(record, from / every);
    let mut state = (predictor, index, 0);
    let (before, asked) = bytes.split_at(from * BYTES);
    plain::decoded(&before[from / every * every * BYTES..], &mut state);
    state.2 = 0;
    plain::decoded(asked, &mut state);
    state
}

/// By lenient reading. The counts start at 0, those of channels that are not there too.
pub fn decode_block(channels: u8, block: &[u8], clipped: &mut [u32; 8], samples: &mut [i16]) -> u8 {
    let number = ms_oracle::decode(channels, block, samples);
    if number == 0 {
        *clipped = [0; 8];
        plain::block(channels, block, clipped);
    }
    number
}

/// The counts start where the states have them.
pub fn encode_block(channels: u8, samples: &[i16], states: &mut States, block: &mut [u8]) -> u8 {
    let mut two = states.map(|(predictor, index, _)| (predictor, index));
    let mut clipped = states.map(|(.., clipped)| clipped);
    let number = ms_oracle::encode(channels, samples, &mut two, block);
    if number == 0 {
        plain::block(channels, block, &mut clipped);
    }
    for (state, ((predictor, index), clipped)) in
        states.iter_mut().zip(two.into_iter().zip(clipped))
    {
        *state = (predictor, index, clipped);
    }
    number
}

fn agree((predictor, index, _): State, two: blocks::State) {
    assert_eq!((predictor, index), two, "the plain loop, and the oracle");
}
