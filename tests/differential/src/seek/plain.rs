//! A seek index by a plain loop over the oracle's call for one block, for the oracle has none: what is in a
//! record, what is refused and in which order, and what is written.

use crate::blocks::{oracle, State, BYTES, MOST, SAMPLES};

/// What a call returns that refuses its bytes or its samples.
const RUN: u8 = 3;
/// What a call returns that refuses a record, or a number that goes with one.
const INDEX: u8 = 5;

/// The state is that before the run, and then that behind it.
#[inline(always)]
pub fn index(bytes: &[u8], every: u8, state: &mut State, record: &mut [u8]) -> u8 {
    let Some(blocks) = blocks(bytes) else {
        return RUN;
    };
    if !(1..=64).contains(&every) || record.len() != record_len(blocks.len(), every) {
        return INDEX;
    }
    record[..4].copy_from_slice(&head(blocks.len(), every));
    let mut samples = [0; SAMPLES];
    for (number, block) in blocks.iter().enumerate() {
        if number.is_multiple_of(usize::from(every)) {
            keep(record, number / usize::from(every), *state);
        }
        oracle::decode(block, state, &mut samples);
    }
    0
}

/// From the state that is kept at the block or before it. The blocks between are decoded for their state.
pub fn decode(
    bytes: &[u8],
    record: &[u8],
    from: usize,
    state: &mut State,
    samples: &mut [i16],
) -> u8 {
    let (blocks, every) = match opened(bytes, record, from) {
        Ok(opened) => opened,
        Err(refusal) => return refusal,
    };
    if samples.len() != SAMPLES * (blocks.len() - from) {
        return RUN;
    }
    *state = kept(record, from / every);
    for block in &blocks[from / every * every..from] {
        oracle::decode(block, state, &mut [0; SAMPLES]);
    }
    oracle::decode(blocks[from..].as_flattened(), state, samples)
}

/// From that state too. Those that are kept behind the block are written.
#[inline(always)]
pub fn reindex(bytes: &[u8], from: usize, record: &mut [u8]) -> u8 {
    let (blocks, every) = match opened(bytes, record, from) {
        Ok(opened) => opened,
        Err(refusal) => return refusal,
    };
    let mut state = kept(record, from / every);
    let mut samples = [0; SAMPLES];
    for (number, block) in blocks.iter().enumerate().skip(from / every * every) {
        if number > from && number.is_multiple_of(every) {
            keep(record, number / every, state);
        }
        oracle::decode(block, &mut state, &mut samples);
    }
    0
}

/// 0 to 1,024 of them, and nothing behind.
fn blocks(bytes: &[u8]) -> Option<&[[u8; BYTES]]> {
    match bytes.as_chunks() {
        (blocks, []) if blocks.len() <= MOST => Some(blocks),
        _ => None,
    }
}

/// The blocks, and how far apart their states are kept, if the record fits them and has the block.
fn opened<'a>(
    bytes: &'a [u8],
    record: &[u8],
    from: usize,
) -> Result<(&'a [[u8; BYTES]], usize), u8> {
    let blocks = blocks(bytes).ok_or(RUN)?;
    match *record {
        [_, _, 1, every @ 1..=64, ..]
            if record.len() == record_len(blocks.len(), every)
                && record[..4] == head(blocks.len(), every)
                && from < blocks.len() =>
        {
            Ok((blocks, every.into()))
        }
        _ => Err(INDEX),
    }
}

/// Four bytes, and three for each state.
pub fn record_len(blocks: usize, every: u8) -> usize {
    4 + 3 * blocks.div_ceil(every.into())
}

/// The length does not count the two bytes that say it.
pub fn head(blocks: usize, every: u8) -> [u8; 4] {
    let [high, low] = (record_len(blocks, every) as u16 - 2).to_be_bytes();
    [high, low, 1, every]
}

fn keep(record: &mut [u8], number: usize, (predictor, index): State) {
    let [high, low] = predictor.to_be_bytes();
    record[4 + 3 * number..][..3].copy_from_slice(&[high, low, index]);
}

pub fn kept(record: &[u8], number: usize) -> State {
    let at = 4 + 3 * number;
    let predictor = i16::from_be_bytes([record[at], record[at + 1]]);
    (predictor, record[at + 2])
}
