//! The same in lenient reading ([`lenient`](crate::lenient)): an index above 88 in a header is read as 88.

use crate::ffi;
use crate::ms::counts;
use crate::refusal::Refusal;
use crate::MS_MOST_CHANNELS;

/// Decodes an MS block of 1 to 8 channels, as
/// [`metered::decode_adpcm_ima_ms_channels`](crate::metered::decode_adpcm_ima_ms_channels) does, but reads an
/// index above 88 as 88.
///
/// # Errors
///
/// [`Refusal::Channels`], and after that [`Refusal::Lengths`]. Then `out_samples` is as it was.
///
/// ```
/// use sprettuhol::{metered, Refusal};
///
/// // the nibble 7, from an index of 200
/// let (block, mut samples) = ([0, 0, 200, 0, 0x87], [0; 3]);
/// let clipped = metered::lenient::decode_adpcm_ima_ms_channels(1, &block, &mut samples)?;
/// assert_eq!((clipped[0], samples), (1, [0, 32767, 28672]));
/// let refused = metered::decode_adpcm_ima_ms_channels(1, &block, &mut samples);
/// assert_eq!(refused, Err(Refusal::StepIndex));
/// # Ok::<(), Refusal>(())
/// ```
#[inline]
pub fn decode_adpcm_ima_ms_channels(
    channels: u8,
    buf: &[u8],
    out_samples: &mut [i16],
) -> Result<[u32; MS_MOST_CHANNELS], Refusal> {
    counts(|clipped| ffi::decode_ms_lenient(channels, buf, out_samples, clipped))
}
