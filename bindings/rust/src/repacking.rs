//! An MS block, of one to eight channels, decoded and encoded again.

use crate::ffi;
use crate::refusal::{answer, Refusal};

/// Repacks an MS block: decodes it and encodes the samples again, from the indices of its own header.
/// Writes all of `out`, and answers whether any byte is another than in `block`.
///
/// `false`: the block is one that the encoder writes, from some samples and from indices of 0 to 88.
/// `true`: it is not. Its samples may be the same all the same; decode both, and ask [`loss_report`].
/// Repacking a second time changes nothing.
///
/// [`loss_report`]: crate::loss_report
///
/// # Errors
///
/// [`Refusal::Channels`], if `channels` is not 1 to 8; after that [`Refusal::Lengths`], if `block` has
/// a length for which [`ms_samples`](crate::ms_samples) is `None`, or `out` another one than `block`; after
/// that [`Refusal::StepIndex`], if the header of a channel has an index above 88. Then `out` is as it was.
/// [`lenient::repack_adpcm_ima_ms`](crate::lenient::repack_adpcm_ima_ms) takes such an index as 88.
///
/// ```
/// use sprettuhol::{repack_adpcm_ima_ms, Refusal};
///
/// let mut out = [1; 5];
/// assert_eq!(repack_adpcm_ima_ms(1, &[0, 0, 0, 0, 0x17], &mut out), Ok(false));
/// assert_eq!(out, [0, 0, 0, 0, 0x17]);
///
/// // a nibble that clips is not one that the encoder writes
/// assert_eq!(repack_adpcm_ima_ms(1, &[0xf6, 0x7f, 0, 0, 0x07], &mut out), Ok(true));
/// assert_eq!(out, [0xf6, 0x7f, 0, 0, 0x05]);
///
/// // an index of 88; of one channel the seventh byte is no index
/// assert_eq!(repack_adpcm_ima_ms(1, &[0, 0, 88, 0, 0], &mut out), Ok(false));
/// assert_eq!(repack_adpcm_ima_ms(1, &[0, 0, 0, 0, 0, 0, 0xff], &mut [0; 7]), Ok(false));
///
/// // an index of 89 or more, which is looked at last
/// let mut out = [1; 5];
/// assert_eq!(repack_adpcm_ima_ms(1, &[0, 0, 89, 0, 0], &mut out), Err(Refusal::StepIndex));
/// assert_eq!(repack_adpcm_ima_ms(9, &[200; 5], &mut out), Err(Refusal::Channels));
/// assert_eq!(repack_adpcm_ima_ms(2, &[200; 5], &mut out), Err(Refusal::Lengths));
/// assert_eq!(repack_adpcm_ima_ms(1, &[200; 4], &mut out), Err(Refusal::Lengths));
/// assert_eq!(out, [1; 5]);
/// ```
#[inline]
pub fn repack_adpcm_ima_ms(channels: u8, block: &[u8], out: &mut [u8]) -> Result<bool, Refusal> {
    let mut changed = 0;
    answer(ffi::repack_ms(channels, block, &mut changed, out))?;
    Ok(changed != 0)
}
