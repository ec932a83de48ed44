//! One nibble of IMA ADPCM, in one shape for both sides: an input and the state before it, an answer and
//! the state after it, all plain numbers. A state is a predictor and a step index. What ours counts of clipped
//! steps is not looked at here, for the oracle does not count them. bench/ uses this file too.

/// A nibble (any byte), or a sample, with the state before it.
pub type Before<T> = (T, i16, u8);
/// A sample, or a nibble, with the state after it.
pub type After<T> = (T, i16, u8);

pub mod ours {
    use super::{After, Before};
    use crate::ffi;

    #[inline(always)]
    pub fn decode((nibble, mut predictor, mut index): Before<u8>) -> After<i16> {
        let sample = ffi::decode_adpcm_ima(nibble, (&mut predictor, &mut index, &mut 0));
        (sample, predictor, index)
    }

    #[inline(always)]
    pub fn encode((sample, mut predictor, mut index): Before<i16>) -> After<u8> {
        let nibble = ffi::encode_adpcm_ima(sample, (&mut predictor, &mut index, &mut 0));
        (nibble, predictor, index)
    }
}

pub mod oracle {
    use super::{After, Before};
    use audio_codec_algorithms::{decode_adpcm_ima, encode_adpcm_ima, AdpcmImaState};

    #[inline(always)]
    pub fn decode((nibble, predictor, step_index): Before<u8>) -> After<i16> {
        let mut state = AdpcmImaState {
            predictor,
            step_index,
        };
        let sample = decode_adpcm_ima(nibble, &mut state);
        (sample, state.predictor, state.step_index)
    }

    #[inline(always)]
    pub fn encode((sample, predictor, step_index): Before<i16>) -> After<u8> {
        let mut state = AdpcmImaState {
            predictor,
            step_index,
        };
        let nibble = encode_adpcm_ima(sample, &mut state);
        (nibble, state.predictor, state.step_index)
    }
}
