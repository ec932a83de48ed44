//! States that count clipped steps, and the calls that carry the count.
//!
//! A step moves the predictor by a difference, up or down. If the exact sum is below -32768 or above 32767, the
//! sample is the end of the scale that is nearer, and the step has clipped. A sum of exactly -32768 or 32767 is
//! a sample like any other.
//!
//! ```
//! use sprettuhol::metered::{decode_adpcm_ima, State};
//!
//! // at step index 88, nibble 7 adds 61,436, which is above 32,767
//! let mut state = State { predictor: 0, step_index: 88, clipped: 0 };
//! assert_eq!(decode_adpcm_ima(7, &mut state), 32767);
//! assert_eq!(state.clipped, 1);
//! ```
//!
//! The calls have the names of those at the root and take the same parameters, with a [`State`] in the place of
//! an [`AdpcmImaState`]. Apart from the count they do the same: bytes, samples, refusals and the other two numbers
//! of a state do not depend on it. An encoder's step is the decoder's step with the nibble that was written, so
//! it counts the same.
//!
//! The count travels with the state: if the second part of a run starts from the state that the first part
//! leaves, it ends with the count of the whole run. A refused call leaves the count as it was.

pub mod lenient;

use crate::ms::{counts, encode};
use crate::refusal::{answer, Refusal};
use crate::{ffi, AdpcmImaState, Error, MS_MOST_CHANNELS};

/// The state of an IMA ADPCM encoder or decoder, with a count of its clipped steps.
#[derive(Debug, Clone, PartialEq)]
pub struct State {
    /// The last sample, as it was decoded.
    pub predictor: i16,
    /// The place of the step in the step table, as in [`AdpcmImaState::step_index`].
    pub step_index: u8,
    /// How many steps have clipped so far. It stops at 4,294,967,295.
    pub clipped: u32,
}

impl State {
    /// The zero state. No step has clipped.
    ///
    /// ```
    /// use sprettuhol::metered::State;
    ///
    /// let state = State::new();
    /// assert_eq!((state.predictor, state.step_index, state.clipped), (0, 0, 0));
    /// assert_eq!(state, State::default());
    /// ```
    pub fn new() -> State {
        State {
            predictor: 0,
            step_index: 0,
            clipped: 0,
        }
    }

    /// Its numbers, as the library is lent them.
    #[inline]
    fn lent(&mut self) -> ffi::Lent<'_> {
        (&mut self.predictor, &mut self.step_index, &mut self.clipped)
    }
}

impl Default for State {
    fn default() -> Self {
        Self::new()
    }
}

/// The count starts at 0.
///
/// ```
/// use sprettuhol::{metered::State, AdpcmImaState};
///
/// let state = State::from(AdpcmImaState { predictor: 5, step_index: 7 });
/// assert_eq!(state, State { predictor: 5, step_index: 7, clipped: 0 });
/// ```
impl From<AdpcmImaState> for State {
    #[inline]
    fn from(state: AdpcmImaState) -> State {
        State {
            predictor: state.predictor,
            step_index: state.step_index,
            clipped: 0,
        }
    }
}

/// The count is left behind.
///
/// ```
/// use sprettuhol::{metered::State, AdpcmImaState};
///
/// let state = AdpcmImaState::from(State { predictor: 5, step_index: 7, clipped: 9 });
/// assert_eq!(state, AdpcmImaState { predictor: 5, step_index: 7 });
/// ```
impl From<State> for AdpcmImaState {
    #[inline]
    fn from(state: State) -> AdpcmImaState {
        AdpcmImaState {
            predictor: state.predictor,
            step_index: state.step_index,
        }
    }
}

/// The sample of a nibble, as by [`decode_adpcm_ima`](crate::decode_adpcm_ima).
///
/// ```
/// use sprettuhol::metered::{decode_adpcm_ima, State};
///
/// // the sum is 61,436
/// let mut state = State { predictor: 0, step_index: 88, clipped: 0 };
/// assert_eq!(decode_adpcm_ima(7, &mut state), 32767);
/// assert_eq!(state, State { predictor: 32767, step_index: 88, clipped: 1 });
///
/// // nibble 7 adds 11 at step index 0: the sum is exactly 32,767, and then one more
/// let mut state = State { predictor: 32756, step_index: 0, clipped: 5 };
/// decode_adpcm_ima(7, &mut state);
/// assert_eq!((state.predictor, state.clipped), (32767, 5));
/// let mut state = State { predictor: 32757, step_index: 0, clipped: 5 };
/// decode_adpcm_ima(7, &mut state);
/// assert_eq!((state.predictor, state.clipped), (32767, 6));
///
/// // the count stops
/// let mut state = State { predictor: 0, step_index: 88, clipped: u32::MAX };
/// decode_adpcm_ima(15, &mut state);
/// assert_eq!((state.predictor, state.clipped), (-32768, u32::MAX));
/// ```
#[inline]
pub fn decode_adpcm_ima(encoded_nibble: u8, state: &mut State) -> i16 {
    ffi::decode_adpcm_ima(encoded_nibble, state.lent())
}

/// The nibble of a sample, as by [`encode_adpcm_ima`](crate::encode_adpcm_ima).
///
/// ```
/// use sprettuhol::metered::{encode_adpcm_ima, State};
///
/// // even nibble 0 adds 4,095 at step index 88
/// let mut state = State { predictor: 32767, step_index: 88, clipped: 0 };
/// assert_eq!(encode_adpcm_ima(32767, &mut state), 0);
/// assert_eq!(state, State { predictor: 32767, step_index: 87, clipped: 1 });
/// ```
#[inline]
pub fn encode_adpcm_ima(sample_value: i16, state: &mut State) -> u8 {
    ffi::encode_adpcm_ima(sample_value, state.lent())
}

/// Decodes a run of 0 to 1,024 ima4 blocks, as
/// [`decode_adpcm_ima_ima4_run`](crate::decode_adpcm_ima_ima4_run) does.
///
/// Where the decoder takes a predictor and a step index from a header, it goes on with its own count. Whether it
/// takes them does not depend on the count.
///
/// # Errors
///
/// Those of [`decode_adpcm_ima_ima4_run`](crate::decode_adpcm_ima_ima4_run). Then `out_samples` and `state` are
/// as they were.
///
/// ```
/// use sprettuhol::metered::{decode_adpcm_ima_ima4_run, State};
/// use sprettuhol::Refusal;
///
/// // a header of 0 and 0, which is far from the state: the count is kept
/// let mut state = State { predictor: 5000, step_index: 3, clipped: 7 };
/// decode_adpcm_ima_ima4_run(&[0; 34], &mut state, &mut [0; 64])?;
/// assert_eq!(state, State { predictor: 0, step_index: 0, clipped: 7 });
///
/// // a header of 0 and 88, and the nibble 7 in all places: each sum is above 32,767
/// let (mut bytes, mut samples) = ([0x77; 34], [0; 64]);
/// bytes[..2].copy_from_slice(&[0, 88]);
/// decode_adpcm_ima_ima4_run(&bytes, &mut state, &mut samples)?;
/// assert_eq!((samples, state.clipped), ([32767; 64], 7 + 64));
///
/// // a byte too few
/// let refused = decode_adpcm_ima_ima4_run(&bytes[..33], &mut state, &mut samples);
/// assert_eq!((refused, state.clipped), (Err(Refusal::Blocks), 71));
/// # Ok::<(), Refusal>(())
/// ```
#[inline]
pub fn decode_adpcm_ima_ima4_run(
    buf: &[u8],
    state: &mut State,
    out_samples: &mut [i16],
) -> Result<(), Refusal> {
    answer(ffi::decode_ima4(buf, state.lent(), out_samples))
}

/// Encodes a run of 0 to 1,024 ima4 blocks, as
/// [`encode_adpcm_ima_ima4_run`](crate::encode_adpcm_ima_ima4_run) does.
///
/// The decoder counts the same, if it starts from the same state and its step index is at most 88.
///
/// # Errors
///
/// Those of [`encode_adpcm_ima_ima4_run`](crate::encode_adpcm_ima_ima4_run). Then `out_buf` and `state` are as
/// they were.
///
/// ```
/// use sprettuhol::metered::{decode_adpcm_ima_ima4_run, encode_adpcm_ima_ima4_run, State};
/// use sprettuhol::Refusal;
///
/// // from one end of the scale to the other and back, four samples each
/// let wave: Vec<i16> = (0..128).map(|k| if k / 4 % 2 == 0 { 32767 } else { -32768 }).collect();
/// let (mut encoder, mut bytes) = (State::new(), [0; 68]);
/// encode_adpcm_ima_ima4_run(&wave, &mut encoder, &mut bytes)?;
/// assert_eq!(encoder.clipped, 57);
///
/// let (mut decoder, mut samples) = (State::new(), [0; 128]);
/// decode_adpcm_ima_ima4_run(&bytes, &mut decoder, &mut samples)?;
/// assert_eq!(decoder, encoder);
/// # Ok::<(), Refusal>(())
/// ```
#[inline]
pub fn encode_adpcm_ima_ima4_run(
    samples: &[i16],
    state: &mut State,
    out_buf: &mut [u8],
) -> Result<(), Refusal> {
    answer(ffi::encode_ima4(samples, state.lent(), out_buf))
}

/// Indexes a run of 0 to 1,024 ima4 blocks, as [`index_adpcm_ima_ima4`](crate::index_adpcm_ima_ima4) does.
///
/// The count goes from the first state to the last, as in decoding the run. The index does not keep it.
///
/// # Errors
///
/// Those of [`index_adpcm_ima_ima4`](crate::index_adpcm_ima_ima4). Then `out_index` and `state` are as they were.
///
/// ```
/// use sprettuhol::metered::{index_adpcm_ima_ima4, State};
/// use sprettuhol::Refusal;
///
/// // two blocks with the nibble 7 in all places, from the middle of the scale and step index 88
/// let mut bytes = [0x77; 68];
/// bytes[..2].copy_from_slice(&[0, 88]);
/// bytes[34..36].copy_from_slice(&[0, 88]);
/// let (mut state, mut index) = (State { clipped: 5, ..State::new() }, [1; 10]);
/// index_adpcm_ima_ima4(&bytes, &mut state, 1, &mut index)?;
/// assert_eq!(state, State { predictor: 32767, step_index: 88, clipped: 5 + 128 });
/// assert_eq!(index, [0, 8, 1, 1, 0, 0, 0, 127, 255, 88]);
/// # Ok::<(), Refusal>(())
/// ```
#[inline]
pub fn index_adpcm_ima_ima4(
    buf: &[u8],
    state: &mut State,
    every: u8,
    out_index: &mut [u8],
) -> Result<(), Refusal> {
    answer(ffi::ima4_index(buf, every, state.lent(), out_index))
}

/// Decodes an indexed run from block `from` on, as
/// [`decode_adpcm_ima_ima4_from`](crate::decode_adpcm_ima_ima4_from) does.
///
/// It counts from 0 at block `from`. Blocks before it that have to be decoded for their state do not count.
///
/// # Errors
///
/// Those of [`decode_adpcm_ima_ima4_from`](crate::decode_adpcm_ima_ima4_from). Then `out_samples` is as it was.
///
/// ```
/// use sprettuhol::metered::{decode_adpcm_ima_ima4_from, index_adpcm_ima_ima4, State};
/// use sprettuhol::Refusal;
///
/// // two blocks in which every step clips, and one state for both
/// let mut bytes = [0x77; 68];
/// bytes[..2].copy_from_slice(&[0, 88]);
/// bytes[34..36].copy_from_slice(&[0, 88]);
/// let mut index = [0; 7];
/// index_adpcm_ima_ima4(&bytes, &mut State::new(), 2, &mut index)?;
///
/// let last = decode_adpcm_ima_ima4_from(&bytes, &index, 0, &mut [0; 128])?;
/// assert_eq!(last.clipped, 128);
/// let last = decode_adpcm_ima_ima4_from(&bytes, &index, 1, &mut [0; 64])?;
/// assert_eq!(last.clipped, 64);
/// # Ok::<(), Refusal>(())
/// ```
#[inline]
pub fn decode_adpcm_ima_ima4_from(
    buf: &[u8],
    index: &[u8],
    from: usize,
    out_samples: &mut [i16],
) -> Result<State, Refusal> {
    // the library only writes it
    let mut state = State::new();
    let number = ffi::decode_ima4_from(buf, index, from, state.lent(), out_samples);
    answer(number)?;
    Ok(state)
}

/// Decodes an MS block of 1 to 8 channels, as
/// [`decode_adpcm_ima_ms_channels`](crate::decode_adpcm_ima_ms_channels) does. Answers how many steps of each
/// channel have clipped, from 0 for each block, and 0 for channels that are not there.
///
/// # Errors
///
/// Those of [`decode_adpcm_ima_ms_channels`](crate::decode_adpcm_ima_ms_channels). Then `out_samples` is as it
/// was.
///
/// ```
/// use sprettuhol::metered::decode_adpcm_ima_ms_channels;
/// use sprettuhol::Refusal;
///
/// // two channels: the left one starts at step index 88, and of its nibbles the first is 7
/// let block = [0, 0, 88, 0, 0, 0, 0, 0, 0x87, 0x88, 0x88, 0x88, 0, 0, 0, 0];
/// let mut samples = [0; 18];
/// let clipped = decode_adpcm_ima_ms_channels(2, &block, &mut samples)?;
/// assert_eq!(clipped, [1, 0, 0, 0, 0, 0, 0, 0]);
/// assert_eq!(samples[..4], [0, 0, 32767, 0]);
///
/// let refused = decode_adpcm_ima_ms_channels(9, &block, &mut samples);
/// assert_eq!(refused, Err(Refusal::Channels));
/// # Ok::<(), Refusal>(())
/// ```
#[inline]
pub fn decode_adpcm_ima_ms_channels(
    channels: u8,
    buf: &[u8],
    out_samples: &mut [i16],
) -> Result<[u32; MS_MOST_CHANNELS], Refusal> {
    counts(|clipped| ffi::decode_ms(channels, buf, out_samples, clipped))
}

/// Encodes samples to an MS block, as [`encode_adpcm_ima_ms`](crate::encode_adpcm_ima_ms) does.
///
/// The header takes the place of the predictor and keeps the count. So the count of a channel is that of its
/// state, and one for each of its steps in this block that clips.
///
/// # Errors
///
/// Those of [`encode_adpcm_ima_ms`](crate::encode_adpcm_ima_ms). Then `out_buf` and all of `states` are as they
/// were.
///
/// ```
/// use sprettuhol::metered::{decode_adpcm_ima_ms_channels, encode_adpcm_ima_ms, State};
///
/// // both channels at the upper end of the scale: there even nibble 0 clips, unless the step is below 8
/// let mut states = [State { step_index: 88, clipped: 5, ..State::new() }, State::new()];
/// let mut block = [0; 16];
/// encode_adpcm_ima_ms(&[32767; 18], &mut states, &mut block)?;
/// assert_eq!(states.map(|state| state.clipped), [5 + 8, 0]);
///
/// // the decoder counts the same, from 0
/// let clipped = decode_adpcm_ima_ms_channels(2, &block, &mut [0; 18])?;
/// assert_eq!(clipped[..2], [8, 0]);
/// # Ok::<(), sprettuhol::Error>(())
/// ```
#[inline]
pub fn encode_adpcm_ima_ms(
    samples: &[i16],
    states: &mut [State],
    out_buf: &mut [u8],
) -> Result<(), Error> {
    Ok(encode(samples, states, out_buf)?)
}
