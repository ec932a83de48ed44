//! An MS block, in one shape for both sides: the channel number, what goes in, what comes out, and the
//! number that is returned. That is 0 when all is done, 1 for a channel number and 2 for a length that is
//! not taken. The encoder is lent the states of eight channels besides, of which a block uses as many as it
//! has channels, from the first on. Repacking is lent a number that says whether any byte changed, 1 or 0.
//! What ours counts of clipped steps is not looked at here, for the oracle does not count them. bench/ uses this
//! file too.
//!
//! The oracle reads an index above 88 as 88. Our lenient calls do the same, and are held to it. The others
//! are strict: they refuse such a block by 8.

#[path = "oracle.rs"]
pub mod oracle;

use crate::blocks::State;
pub use oracle::States;
use std::array;

/// States for eight channels: these for the first two, and others for each two behind them.
pub fn eight(two: [State; 2]) -> States {
    array::from_fn(|channel| {
        let (predictor, index) = two[channel % 2];
        let turn = (channel / 2) as u8;
        let predictor = predictor.wrapping_add(7_919 * i16::from(turn));
        (predictor, index.wrapping_add(51 * turn))
    })
}

/// Samples of several channels, as a block has them: one of each in turn, then the next of each, and so on.
pub fn interleaved(channels: &[Vec<i16>]) -> Vec<i16> {
    let frame = |place| channels.iter().map(move |samples| samples[place]);
    (0..channels[0].len()).flat_map(frame).collect()
}

pub mod ours {
    use super::States;
    use crate::ffi;
    use std::array;

    #[inline(always)]
    pub fn decode(channels: u8, block: &[u8], samples: &mut [i16]) -> u8 {
        ffi::decode_ms(channels, block, samples, &mut [0; 8])
    }

    #[inline(always)]
    pub fn decode_lenient(channels: u8, block: &[u8], samples: &mut [i16]) -> u8 {
        ffi::decode_ms_lenient(channels, block, samples, &mut [0; 8])
    }

    #[inline(always)]
    pub fn encode(channels: u8, samples: &[i16], states: &mut States, block: &mut [u8]) -> u8 {
        let mut predictors = states.map(|(predictor, _)| predictor);
        let mut indices = states.map(|(_, index)| index);
        let lent = (&mut predictors, &mut indices, &mut [0; 8]);
        let number = ffi::encode_ms(channels, samples, lent, block);
        *states = array::from_fn(|channel| (predictors[channel], indices[channel]));
        number
    }

    #[inline(always)]
    pub fn repack(channels: u8, block: &[u8], changed: &mut u8, repacked: &mut [u8]) -> u8 {
        ffi::repack_ms(channels, block, changed, repacked)
    }

    #[inline(always)]
    pub fn repack_lenient(channels: u8, block: &[u8], changed: &mut u8, repacked: &mut [u8]) -> u8 {
        ffi::repack_ms_lenient(channels, block, changed, repacked)
    }
}
