//! MS blocks, of one to eight channels.

use crate::metered::{self, State};
use crate::refusal::{answer, Refusal};
use crate::{ffi, AdpcmImaState, Error};

/// The most bytes that an MS block may have.
pub const MS_MOST_BYTES: usize = 65_535;
/// The most channels that an MS block may have.
pub const MS_MOST_CHANNELS: usize = 8;

/// How many samples an MS block has, those of all channels together: for c channels and n bytes 2n-7c. It is
/// `None` where the calls refuse the channel number or the length.
///
/// A block of one channel has 4 to 65,535 bytes. One of 2 to 8 channels has up to 65,535 too, and its length is
/// divisible by 4c.
///
/// ```
/// use sprettuhol::{ms_samples, LOSS_MOST_SAMPLES, MS_MOST_BYTES};
///
/// assert_eq!([ms_samples(1, 4), ms_samples(1, 5), ms_samples(1, 1024)], [Some(1), Some(3), Some(2041)]);
/// assert_eq!([ms_samples(2, 8), ms_samples(2, 2048), ms_samples(6, 48)], [Some(2), Some(4082), Some(54)]);
/// assert_eq!(ms_samples(1, MS_MOST_BYTES), Some(LOSS_MOST_SAMPLES));
///
/// // no channels, nine of them, two thirds of a group, and too many bytes
/// assert_eq!([ms_samples(0, 4), ms_samples(9, 36), ms_samples(3, 20)], [None; 3]);
/// assert_eq!([ms_samples(1, MS_MOST_BYTES + 1), ms_samples(1, usize::MAX)], [None; 2]);
///
/// const SAMPLES: Option<usize> = ms_samples(8, 64);
/// assert_eq!(SAMPLES, Some(72));
/// ```
pub const fn ms_samples(channels: u8, bytes: usize) -> Option<usize> {
    let channels = channels as usize;
    let group = 4 * channels;
    if channels < 1 || channels > MS_MOST_CHANNELS || bytes < group || bytes > MS_MOST_BYTES {
        return None;
    }
    // of one channel the last group may be cut short
    if channels > 1 && bytes % group != 0 {
        return None;
    }
    Some(2 * bytes - 7 * channels)
}

/// Decodes an MS block of one channel or two, all of `out_samples`. Samples of two channels are interleaved,
/// the left one first. [`decode_adpcm_ima_ms_channels`] decodes blocks of up to eight channels.
///
/// A block decodes by itself: each channel starts from its own four header bytes, predictor, index and
/// a byte that is not looked at.
///
/// | | one channel | two channels, `is_stereo` |
/// |---|---|---|
/// | `buf`, n bytes | 4 to 65,535 | 8 to 65,528, divisible by 8 |
/// | step index, 0 to 88 | `buf[2]` | `buf[2]` and `buf[6]` |
/// | `out_samples` | 2n-7 | 2n-14 |
///
/// An index above 88 has no step, so its block is refused. [`lenient::decode_adpcm_ima_ms`] reads it as 88.
///
/// [`lenient::decode_adpcm_ima_ms`]: crate::lenient::decode_adpcm_ima_ms
///
/// # Errors
///
/// [`Error::InvalidBufferSize`] for any other length, and after that [`Error::InvalidStepIndex`] for an
/// index above 88. Then `out_samples` is as it was.
///
/// ```
/// use sprettuhol::{decode_adpcm_ima_ms, Error};
///
/// let mut samples = [1; 3];
/// decode_adpcm_ima_ms(&[0, 0, 0, 0, 0x17], false, &mut samples)?;
/// assert_eq!(samples, [0, 11, 17]);
///
/// // an index of 88, and one of 89
/// decode_adpcm_ima_ms(&[0, 0, 88, 0, 0], false, &mut samples)?;
/// assert_eq!(samples, [0, 4095, 7819]);
/// let refused = decode_adpcm_ima_ms(&[0, 0, 89, 0, 0], false, &mut samples);
/// assert!(matches!(refused, Err(Error::InvalidStepIndex)));
/// assert_eq!(samples, [0, 4095, 7819]);
///
/// // of two channels the seventh byte is the right one's index, of one channel it is two nibbles
/// let block = [0, 0, 0, 0, 0, 0, 0xff, 0];
/// let refused = decode_adpcm_ima_ms(&block, true, &mut [0; 2]);
/// assert!(matches!(refused, Err(Error::InvalidStepIndex)));
/// decode_adpcm_ima_ms(&block, false, &mut [0; 9])?;
///
/// // not divisible by 8, which is looked at first
/// let mut samples = [1; 10];
/// let refused = decode_adpcm_ima_ms(&[200; 12], true, &mut samples);
/// assert!(matches!(refused, Err(Error::InvalidBufferSize)));
/// assert_eq!(samples, [1; 10]);
/// # Ok::<(), Error>(())
/// ```
#[inline]
pub fn decode_adpcm_ima_ms(
    buf: &[u8],
    is_stereo: bool,
    out_samples: &mut [i16],
) -> Result<(), Error> {
    let channels = if is_stereo { 2 } else { 1 };
    Ok(decode_adpcm_ima_ms_channels(channels, buf, out_samples)?)
}

/// Decodes an MS block of 1 to 8 channels, all of `out_samples`. Samples are interleaved: one of each
/// channel in turn, then the next of each, and so on.
///
/// A block decodes by itself. First comes the header of each channel in turn, four bytes each: predictor, index
/// and a byte that is not looked at. Then come groups: four bytes of each channel in turn, which are eight
/// samples of each, the low half of a byte first.
///
/// | | one channel | c channels, 2 to 8 |
/// |---|---|---|
/// | `buf`, n bytes | 4 to 65,535 | 4c to 65,535, divisible by 4c |
/// | step index, 0 to 88 | `buf[2]` | `buf[2]`, `buf[6]` and so on, c of them |
/// | `out_samples` | 2n-7 | 2n-7c |
///
/// [`ms_samples`] counts the samples. An index above 88 has no step, so its block is refused.
/// [`lenient::decode_adpcm_ima_ms_channels`] reads it as 88.
///
/// The channels keep the order that they have in the block. Which channel is which speaker, the container
/// says.
///
/// [`lenient::decode_adpcm_ima_ms_channels`]: crate::lenient::decode_adpcm_ima_ms_channels
///
/// # Errors
///
/// [`Refusal::Channels`], if `channels` is not 1 to 8; after that [`Refusal::Lengths`] for any other length;
/// after that [`Refusal::StepIndex`], if the header of a channel has an index above 88. Then `out_samples` is
/// as it was.
///
/// ```
/// use sprettuhol::{decode_adpcm_ima_ms_channels, ms_samples, Refusal};
///
/// // six channels with the predictors 10 to 60, and a group of which the fourth channel's first byte is 0x17
/// let mut block = [0; 48];
/// for (header, predictor) in block[..24].chunks_exact_mut(4).zip([10, 20, 30, 40, 50, 60]) {
///     header[0] = predictor;
/// }
/// block[24 + 3 * 4] = 0x17;
///
/// // the order of the channels is that of the block
/// let mut samples = [0; 54];
/// assert_eq!(ms_samples(6, block.len()), Some(samples.len()));
/// decode_adpcm_ima_ms_channels(6, &block, &mut samples)?;
/// assert_eq!(samples[..6], [10, 20, 30, 40, 50, 60]);
/// assert_eq!(samples[6..12], [10, 20, 30, 51, 50, 60]);
/// assert_eq!(samples[12..18], [10, 20, 30, 57, 50, 60]);
///
/// // an index of 89 in the last header; two thirds of a group; and nine channels
/// let mut samples = [1; 54];
/// block[22] = 89;
/// let refused = decode_adpcm_ima_ms_channels(6, &block, &mut samples);
/// assert_eq!(refused, Err(Refusal::StepIndex));
/// let refused = decode_adpcm_ima_ms_channels(6, &block[..40], &mut samples[..38]);
/// assert_eq!(refused, Err(Refusal::Lengths));
/// let refused = decode_adpcm_ima_ms_channels(9, &block[..36], &mut samples[..9]);
/// assert_eq!(refused, Err(Refusal::Channels));
/// assert_eq!(samples, [1; 54]);
/// # Ok::<(), Refusal>(())
/// ```
#[inline]
pub fn decode_adpcm_ima_ms_channels(
    channels: u8,
    buf: &[u8],
    out_samples: &mut [i16],
) -> Result<(), Refusal> {
    metered::decode_adpcm_ima_ms_channels(channels, buf, out_samples).map(|_| ())
}

/// Encodes samples to an MS block, all of `out_buf`. The next states take the place of `states`, of
/// which there are as many as channels, 1 to 8. Samples are interleaved: one of each channel in turn, then the
/// next of each, and so on.
///
/// The lengths are those of [`decode_adpcm_ima_ms_channels`]. Hand it the states of the block before, and zero
/// states for the first: the header takes the index as it is, even one above 88, and for its predictor
/// the first sample.
///
/// So start from indices of 0 to 88, or lower them first. A block that was written from a larger one is
/// refused by [`decode_adpcm_ima_ms_channels`], and read by [`lenient::decode_adpcm_ima_ms_channels`].
///
/// [`lenient::decode_adpcm_ima_ms_channels`]: crate::lenient::decode_adpcm_ima_ms_channels
///
/// # Errors
///
/// [`Error::InvalidChannels`] for any other number of states, and after that
/// [`Error::InvalidBufferSize`] for any other length. Then `out_buf` and all of `states` are as they
/// were.
///
/// ```
/// use sprettuhol::{decode_adpcm_ima_ms, encode_adpcm_ima_ms, AdpcmImaState, Error};
///
/// let (mut states, mut block) = ([AdpcmImaState::new()], [1; 5]);
/// encode_adpcm_ima_ms(&[0, 11, 17], &mut states, &mut block)?;
/// assert_eq!(block, [0, 0, 0, 0, 0x17]);
///
/// // the raw index, which only a nibble lowers
/// let (mut states, mut block) = ([AdpcmImaState { predictor: 5, step_index: 200 }], [1; 4]);
/// encode_adpcm_ima_ms(&[-2], &mut states, &mut block)?;
/// assert_eq!(block, [0xfe, 0xff, 200, 0]);
/// assert_eq!((states[0].predictor, states[0].step_index), (-2, 200));
/// let refused = decode_adpcm_ima_ms(&block, false, &mut [0]);
/// assert!(matches!(refused, Err(Error::InvalidStepIndex)));
///
/// // three channels, a sample of each
/// let (mut states, mut block) = (vec![AdpcmImaState::new(); 3], [1; 12]);
/// encode_adpcm_ima_ms(&[10, 20, 30], &mut states, &mut block)?;
/// assert_eq!(block, [10, 0, 0, 0, 20, 0, 0, 0, 30, 0, 0, 0]);
///
/// // nine channels; then 10 samples of two
/// let mut states = vec![AdpcmImaState { predictor: 5, step_index: 200 }; 9];
/// let (before, mut block) = (states.clone(), [1; 12]);
/// let refused = encode_adpcm_ima_ms(&[0; 10], &mut states, &mut block);
/// assert!(matches!(refused, Err(Error::InvalidChannels)));
/// let refused = encode_adpcm_ima_ms(&[0; 10], &mut states[..2], &mut block);
/// assert!(matches!(refused, Err(Error::InvalidBufferSize)));
/// assert_eq!((states, block), (before, [1; 12]));
/// # Ok::<(), Error>(())
/// ```
#[inline]
pub fn encode_adpcm_ima_ms(
    samples: &[i16],
    states: &mut [AdpcmImaState],
    out_buf: &mut [u8],
) -> Result<(), Error> {
    Ok(encode(samples, states, out_buf)?)
}

/// The same from states of either kind, with a count or without.
#[inline]
pub(crate) fn encode<S: Clone + From<State>>(
    samples: &[i16],
    states: &mut [S],
    out_buf: &mut [u8],
) -> Result<(), Refusal>
where
    State: From<S>,
{
    // over 255 states are told as 255, which is refused as well; wrapped, 257 of them would be 1
    let channels = u8::try_from(states.len()).unwrap_or(u8::MAX);
    // the library is lent eight of each; a state that is not there is zero
    let mut predictors = [0; MS_MOST_CHANNELS];
    let mut step_indices = [0; MS_MOST_CHANNELS];
    let mut clipped = [0; MS_MOST_CHANNELS];
    let lent = predictors.iter_mut().zip(&mut step_indices);
    for (state, ((predictor, step_index), count)) in states.iter().zip(lent.zip(&mut clipped)) {
        let state = State::from(state.clone());
        (*predictor, *step_index, *count) = (state.predictor, state.step_index, state.clipped);
    }
    let lent = (&mut predictors, &mut step_indices, &mut clipped);
    answer(ffi::encode_ms(channels, samples, lent, out_buf))?;
    let next = predictors.into_iter().zip(step_indices).zip(clipped);
    for (state, ((predictor, step_index), clipped)) in states.iter_mut().zip(next) {
        let next = State {
            predictor,
            step_index,
            clipped,
        };
        *state = next.into();
    }
    Ok(())
}

/// The counts that a decoder tells, if it is not refused.
#[inline]
pub(crate) fn counts(
    decode: impl FnOnce(&mut [u32; MS_MOST_CHANNELS]) -> u8,
) -> Result<[u32; MS_MOST_CHANNELS], Refusal> {
    let mut clipped = [0; MS_MOST_CHANNELS];
    answer(decode(&mut clipped))?;
    Ok(clipped)
}
