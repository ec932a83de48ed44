//! IMA ADPCM by the single nibble. No call refuses anything.

use crate::ffi;

/// The state of an IMA ADPCM encoder or decoder.
///
/// It starts at zero or from values of the audio stream, as the format has it, and travels with every
/// cut: the same nibbles from another state are other samples.
#[derive(Debug, Clone, PartialEq)]
pub struct AdpcmImaState {
    /// The last sample, as it was decoded.
    pub predictor: i16,
    /// The place of the step in the step table, 0 to 88. Every number is taken; one above 88 is read as
    /// 88, but where a function says that the raw number counts.
    pub step_index: u8,
}

impl AdpcmImaState {
    /// The zero state.
    ///
    /// ```
    /// use sprettuhol::AdpcmImaState;
    ///
    /// let state = AdpcmImaState::new();
    /// assert_eq!((state.predictor, state.step_index), (0, 0));
    /// assert_eq!(state, AdpcmImaState::default());
    /// ```
    pub fn new() -> AdpcmImaState {
        AdpcmImaState {
            predictor: 0,
            step_index: 0,
        }
    }

    /// Its numbers and a count, as the library is lent them.
    #[inline]
    pub(crate) fn lent<'a>(&'a mut self, clipped: &'a mut u32) -> ffi::Lent<'a> {
        (&mut self.predictor, &mut self.step_index, clipped)
    }
}

impl Default for AdpcmImaState {
    fn default() -> Self {
        Self::new()
    }
}

/// The sample of a nibble. The next state takes the place of `state`; the sample is its predictor.
///
/// Of `encoded_nibble` only the lowest four bits count. Every byte and every state is taken.
///
/// ```
/// use sprettuhol::{decode_adpcm_ima, AdpcmImaState};
///
/// let mut state = AdpcmImaState::new();
/// assert_eq!(decode_adpcm_ima(7, &mut state), 11);
/// assert_eq!((state.predictor, state.step_index), (11, 8));
///
/// // an index above 88 is read as 88
/// let mut state = AdpcmImaState { predictor: 0, step_index: 255 };
/// assert_eq!(decode_adpcm_ima(0, &mut state), 4095);
/// assert_eq!(state.step_index, 87);
/// ```
#[inline]
pub fn decode_adpcm_ima(encoded_nibble: u8, state: &mut AdpcmImaState) -> i16 {
    ffi::decode_adpcm_ima(encoded_nibble, state.lent(&mut 0))
}

/// The nibble of a sample, in the lowest four bits; the others are 0. The next state takes the place of
/// `state`.
///
/// Every sample and every state is taken.
///
/// ```
/// use sprettuhol::{encode_adpcm_ima, AdpcmImaState};
///
/// let mut state = AdpcmImaState::new();
/// assert_eq!(encode_adpcm_ima(-1, &mut state), 9);
/// assert_eq!((state.predictor, state.step_index), (-1, 0));
///
/// // the nibble's sample is what the predictor says, and not the one that went in
/// let mut state = AdpcmImaState { predictor: 32758, step_index: 0 };
/// assert_eq!(encode_adpcm_ima(32767, &mut state), 5);
/// assert_eq!((state.predictor, state.step_index), (32766, 4));
/// ```
#[inline]
pub fn encode_adpcm_ima(sample_value: i16, state: &mut AdpcmImaState) -> u8 {
    ffi::encode_adpcm_ima(sample_value, state.lent(&mut 0))
}
