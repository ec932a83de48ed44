//! The oracle's calls on MS blocks, in the shape that block.rs names, and what it makes of a repacking. Of one
//! channel and of two these are the Rust's own calls. It has none for three to eight, so there it is asked
//! channel by channel: each is cut out into a block of one channel, and what the Rust makes of these is woven
//! into one. bench/, tests/binding and tests/oracle use this file too.

use audio_codec_algorithms::{decode_adpcm_ima_ms, encode_adpcm_ima_ms, AdpcmImaState, Error};
use std::slice;

/// A predictor and a step index for each channel that a block may have.
pub type States = [(i16, u8); 8];

/// For c channels 2n-7c samples. A block that is too short for that has none.
pub fn fitting(channels: u8, block: usize) -> usize {
    (2 * block).saturating_sub(7 * usize::from(channels))
}

/// The oracle is not told a channel number, but whether there are two. So it is stated here that any
/// number but 1 to 8 is refused, before a length is.
#[inline(always)]
pub fn decode(channels: u8, block: &[u8], samples: &mut [i16]) -> u8 {
    match channels {
        1 | 2 => number(decode_adpcm_ima_ms(block, channels == 2, samples)),
        3..=8 => decode_each(channels.into(), block, samples),
        _ => 1,
    }
}

/// The oracle takes as many states as there are channels. A number that is refused is a number of states
/// too, of which none is the caller's.
#[inline(always)]
pub fn encode(channels: u8, samples: &[i16], states: &mut States, block: &mut [u8]) -> u8 {
    match channels {
        1 => encode_own::<1>(samples, states, block),
        2 => encode_own::<2>(samples, states, block),
        3..=8 => encode_each(channels.into(), samples, states, block),
        _ => {
            let mut states = vec![AdpcmImaState::new(); channels.into()];
            number(encode_adpcm_ima_ms(samples, &mut states, block))
        }
    }
}

/// The Rust's own call, with the first so many states.
#[inline(always)]
fn encode_own<const CHANNELS: usize>(
    samples: &[i16],
    states: &mut [(i16, u8)],
    block: &mut [u8],
) -> u8 {
    let states = states.first_chunk_mut::<CHANNELS>();
    let states = states.expect("there is a state for each channel");
    let mut next = states.map(|(predictor, step_index)| AdpcmImaState {
        predictor,
        step_index,
    });
    let answer = encode_adpcm_ima_ms(samples, &mut next, block);
    *states = next.map(|state| (state.predictor, state.step_index));
    number(answer)
}

/// The rule for the lengths of three to eight channels. The headers are four bytes for each channel, and so is
/// each group behind them. A block has at most 65,535 bytes, and one frame, with eight more for each group.
fn fits(channels: usize, block: usize, samples: usize) -> bool {
    let headers = 4 * channels;
    let taken = (headers..=65_535).contains(&block) && block.is_multiple_of(headers);
    taken && samples == channels * (1 + 8 * (block / headers - 1))
}

/// Three to eight channels, by the Rust's own call for one channel.
fn decode_each(channels: usize, block: &[u8], samples: &mut [i16]) -> u8 {
    if !fits(channels, block.len(), samples.len()) {
        return 2;
    }
    let mut own = vec![0; samples.len() / channels];
    for channel in 0..channels {
        let cut = bytes_of(channel, channels, block);
        decode_adpcm_ima_ms(&cut, false, &mut own).expect("one channel of what fits is taken");
        let places = samples.iter_mut().skip(channel).step_by(channels);
        for (place, &sample) in places.zip(&own) {
            *place = sample;
        }
    }
    0
}

/// The same of encoding.
fn encode_each(channels: usize, samples: &[i16], states: &mut States, block: &mut [u8]) -> u8 {
    if !fits(channels, block.len(), samples.len()) {
        return 2;
    }
    let mut own = vec![0; block.len() / channels];
    for (channel, state) in states.iter_mut().take(channels).enumerate() {
        let cut = samples_of(channel, channels, samples);
        let number = encode_own::<1>(&cut, slice::from_mut(state), &mut own);
        assert_eq!(number, 0, "one channel of what fits is taken");
        let places = block.as_chunks_mut::<4>().0.iter_mut();
        let places = places.skip(channel).step_by(channels);
        for (place, &bytes) in places.zip(own.as_chunks().0) {
            *place = bytes;
        }
    }
    0
}

/// One channel's header and its four bytes of each group, which are a block of one channel.
pub fn bytes_of(channel: usize, channels: usize, block: &[u8]) -> Vec<u8> {
    let fours = block.as_chunks::<4>().0.iter();
    let own: Vec<[u8; 4]> = fours.skip(channel).step_by(channels).copied().collect();
    own.into_flattened()
}

/// One channel's samples.
pub fn samples_of(channel: usize, channels: usize, samples: &[i16]) -> Vec<i16> {
    let own = samples.iter().skip(channel).step_by(channels);
    own.copied().collect()
}

/// The oracle has no such call, so it decodes the block and encodes the samples, from the header's
/// indices, each above 88 taken as 88. Its two calls refuse whatever is refused, the encoder a second
/// buffer of another length. It is lent room for the samples, so that it need not ask for it each time.
#[inline(always)]
pub fn repack(
    samples: &mut Vec<i16>,
    channels: u8,
    block: &[u8],
    changed: &mut u8,
    repacked: &mut [u8],
) -> u8 {
    samples.resize(fitting(channels, block.len()), 0);
    let refusal = decode(channels, block, samples);
    if refusal != 0 {
        return refusal;
    }
    // the predictors make no difference, nor do the states that are not used
    let mut states = [(0, 0); 8];
    for ((_, index), header) in states.iter_mut().zip(block.chunks_exact(4)) {
        *index = header[2].min(88);
    }
    let refusal = encode(channels, samples, &mut states, repacked);
    if refusal == 0 {
        *changed = u8::from(repacked != block);
    }
    refusal
}

fn number(answer: Result<(), Error>) -> u8 {
    match answer {
        Ok(()) => 0,
        Err(Error::InvalidChannels) => 1,
        Err(Error::InvalidBufferSize) => 2,
    }
}
