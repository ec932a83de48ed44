//! Lenient reading of MS blocks: an index above 88 in a header is read as 88, as audio-codec-algorithms
//! reads it. It is for callers that cannot leave such blocks out, such as the importer of an archive.
//!
//! The three calls have the names and the signatures of those at the root, and differ from them in this
//! alone. They never answer [`Error::InvalidStepIndex`] or [`Refusal::StepIndex`].

use crate::refusal::{answer, Refusal};
use crate::{ffi, metered, Error};

/// Decodes an MS block as [`decode_adpcm_ima_ms`](crate::decode_adpcm_ima_ms) does, but reads an index
/// above 88 as 88.
///
/// # Errors
///
/// [`Error::InvalidBufferSize`] for any other length. Then `out_samples` is as it was.
///
/// ```
/// use sprettuhol::{lenient, Error};
///
/// let (mut samples, mut same) = ([1; 3], [2; 3]);
/// lenient::decode_adpcm_ima_ms(&[0, 0, 200, 0, 0], false, &mut samples)?;
/// lenient::decode_adpcm_ima_ms(&[0, 0, 88, 0, 0], false, &mut same)?;
/// assert_eq!((samples, same), ([0, 4095, 7819], [0, 4095, 7819]));
///
/// let refused = lenient::decode_adpcm_ima_ms(&[200; 12], true, &mut [0; 10]);
/// assert!(matches!(refused, Err(Error::InvalidBufferSize)));
/// # Ok::<(), Error>(())
/// ```
#[inline]
pub fn decode_adpcm_ima_ms(
    buf: &[u8],
    is_stereo: bool,
    out_samples: &mut [i16],
) -> Result<(), Error> {
    let channels = if is_stereo { 2 } else { 1 };
    Ok(decode_adpcm_ima_ms_channels(channels, buf, out_samples)?)
}

/// Decodes an MS block of 1 to 8 channels as
/// [`decode_adpcm_ima_ms_channels`](crate::decode_adpcm_ima_ms_channels) does, but reads an index above 88
/// as 88.
///
/// # Errors
///
/// [`Refusal::Channels`], and after that [`Refusal::Lengths`]. Then `out_samples` is as it was.
///
/// ```
/// use sprettuhol::{decode_adpcm_ima_ms_channels, lenient, Refusal};
///
/// // three channels, of which the last has an index of 200
/// let block = [10, 0, 0, 0, 20, 0, 0, 0, 30, 0, 200, 0];
/// let mut samples = [0; 3];
/// lenient::decode_adpcm_ima_ms_channels(3, &block, &mut samples)?;
/// assert_eq!(samples, [10, 20, 30]);
/// let refused = decode_adpcm_ima_ms_channels(3, &block, &mut samples);
/// assert_eq!(refused, Err(Refusal::StepIndex));
/// # Ok::<(), Refusal>(())
/// ```
#[inline]
pub fn decode_adpcm_ima_ms_channels(
    channels: u8,
    buf: &[u8],
    out_samples: &mut [i16],
) -> Result<(), Refusal> {
    metered::lenient::decode_adpcm_ima_ms_channels(channels, buf, out_samples).map(|_| ())
}

/// Repacks an MS block as [`repack_adpcm_ima_ms`](crate::repack_adpcm_ima_ms) does, but takes an index
/// above 88 as 88. So `out` has 88 there, and the answer is `true`.
///
/// # Errors
///
/// [`Refusal::Channels`], and after that [`Refusal::Lengths`]. Then `out` is as it was.
///
/// ```
/// use sprettuhol::{lenient, Refusal};
///
/// let mut out = [1; 5];
/// assert_eq!(lenient::repack_adpcm_ima_ms(1, &[0, 0, 200, 0, 0], &mut out), Ok(true));
/// assert_eq!(out, [0, 0, 88, 0, 0]);
///
/// let refused = lenient::repack_adpcm_ima_ms(9, &[200; 5], &mut out);
/// assert_eq!(refused, Err(Refusal::Channels));
/// ```
#[inline]
pub fn repack_adpcm_ima_ms(channels: u8, block: &[u8], out: &mut [u8]) -> Result<bool, Refusal> {
    let mut changed = 0;
    answer(ffi::repack_ms_lenient(channels, block, &mut changed, out))?;
    Ok(changed != 0)
}
