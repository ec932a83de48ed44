//! A run of ima4 blocks, in one shape for both sides: blocks in, blocks out, and a state that is handed
//! from block to block and back to the caller. The number that comes back is 0 when all is done. A state
//! is a predictor and a step index. What ours counts of clipped steps is not looked at here, for the oracle does
//! not count them. bench/ uses this file too.

/// A block has 34 bytes, two of them its header, and 64 samples.
pub const BYTES: usize = 34;
pub const SAMPLES: usize = 64;
/// So many blocks a run may have.
pub const MOST: usize = 1024;

pub type State = (i16, u8);

pub mod ours {
    use super::State;
    use crate::ffi;

    #[inline(always)]
    pub fn decode(bytes: &[u8], (predictor, index): &mut State, samples: &mut [i16]) -> u8 {
        ffi::decode_ima4(bytes, (predictor, index, &mut 0), samples)
    }

    #[inline(always)]
    pub fn encode(samples: &[i16], (predictor, index): &mut State, bytes: &mut [u8]) -> u8 {
        ffi::encode_ima4(samples, (predictor, index, &mut 0), bytes)
    }
}

/// The oracle has a call for one block, and nothing to refuse: here it is asked about whole blocks.
pub mod oracle {
    use super::{State, BYTES, SAMPLES};
    use audio_codec_algorithms::{decode_adpcm_ima_ima4, encode_adpcm_ima_ima4, AdpcmImaState};

    #[inline(always)]
    pub fn decode(bytes: &[u8], state: &mut State, samples: &mut [i16]) -> u8 {
        let mut next = of(*state);
        let blocks = bytes.as_chunks::<BYTES>().0.iter();
        for (block, samples) in blocks.zip(samples.as_chunks_mut::<SAMPLES>().0) {
            decode_adpcm_ima_ima4(block, &mut next, samples);
        }
        *state = (next.predictor, next.step_index);
        0
    }

    #[inline(always)]
    pub fn encode(samples: &[i16], state: &mut State, bytes: &mut [u8]) -> u8 {
        let mut next = of(*state);
        let blocks = samples.as_chunks::<SAMPLES>().0.iter();
        for (block, bytes) in blocks.zip(bytes.as_chunks_mut::<BYTES>().0) {
            encode_adpcm_ima_ima4(block, &mut next, bytes);
        }
        *state = (next.predictor, next.step_index);
        0
    }

    fn of((predictor, step_index): State) -> AdpcmImaState {
        AdpcmImaState {
            predictor,
            step_index,
        }
    }
}
