//! ima4 blocks, of AIFF-C and QuickTime: one by its type, or a run of 0 to 1,024.

use crate::refusal::{answer, Refusal};
use crate::{ffi, AdpcmImaState};

/// The bytes of an ima4 block.
pub const IMA4_BLOCK_BYTES: usize = 34;
/// The samples of an ima4 block.
pub const IMA4_BLOCK_SAMPLES: usize = 64;
/// The most ima4 blocks that a run may have.
pub const IMA4_MOST_BLOCKS: usize = 1024;

/// Decodes one ima4 block, all of `out_samples`. The next state takes the place of `state`.
///
/// A block is two header bytes, the top nine bits of a predictor and seven bits of an index, and 64
/// nibbles. The decoder keeps the state that it is given if its index, as it is, equals the header's,
/// lowered to 88, and its predictor is within 127 of the header's; otherwise it takes both from the
/// header. So hand it the state of the block before, and the zero state for the first. Nothing is
/// refused.
///
/// ```
/// use sprettuhol::{decode_adpcm_ima_ima4, AdpcmImaState};
///
/// let mut samples = [0; 64];
/// let mut state = AdpcmImaState { predictor: 127, step_index: 0 };
/// decode_adpcm_ima_ima4(&[0; 34], &mut state, &mut samples);
/// assert_eq!(samples, [127; 64]);
///
/// // too far from the header's predictor, which is 0
/// let mut state = AdpcmImaState { predictor: 128, step_index: 0 };
/// decode_adpcm_ima_ima4(&[0; 34], &mut state, &mut samples);
/// assert_eq!(samples, [0; 64]);
/// ```
#[inline]
pub fn decode_adpcm_ima_ima4(
    buf: &[u8; IMA4_BLOCK_BYTES],
    state: &mut AdpcmImaState,
    out_samples: &mut [i16; IMA4_BLOCK_SAMPLES],
) {
    let done = decode_adpcm_ima_ima4_run(buf, state, out_samples);
    debug_assert_eq!(done, Ok(()), "one block by its type is not refused");
}

/// Encodes 64 samples to one ima4 block, all of `out_buf`. The next state takes the place of `state`.
///
/// Hand it the state of the block before, and the zero state for the first. An index above 88 is
/// lowered before it is written. Nothing is refused.
///
/// ```
/// use sprettuhol::{encode_adpcm_ima_ima4, AdpcmImaState};
///
/// // the header has no room for the low seven bits of the predictor: they are in the state alone
/// let mut block = [1; 34];
/// let mut state = AdpcmImaState { predictor: 100, step_index: 0 };
/// encode_adpcm_ima_ima4(&[100; 64], &mut state, &mut block);
/// assert_eq!(block, [0; 34]);
/// assert_eq!((state.predictor, state.step_index), (100, 0));
///
/// let mut state = AdpcmImaState { predictor: 0, step_index: 200 };
/// encode_adpcm_ima_ima4(&[0; 64], &mut state, &mut block);
/// assert_eq!(block[..2], [0, 88]);
/// ```
#[inline]
pub fn encode_adpcm_ima_ima4(
    samples: &[i16; IMA4_BLOCK_SAMPLES],
    state: &mut AdpcmImaState,
    out_buf: &mut [u8; IMA4_BLOCK_BYTES],
) {
    let done = encode_adpcm_ima_ima4_run(samples, state, out_buf);
    debug_assert_eq!(done, Ok(()), "one block by its type is not refused");
}

/// Decodes a run of 0 to 1,024 ima4 blocks, each from the state that the one before it left. The last
/// state takes the place of `state`; a run of no blocks leaves it as it was.
///
/// Decoding a run is decoding its first blocks, and then the others from the state that is left: a cut
/// that carries the state moves no sample, and one that forgets it does.
///
/// # Errors
///
/// [`Refusal::Blocks`], if `buf` is not 34 bytes a block, `out_samples` not 64 samples a block, or
/// there are over 1,024 blocks. Then `out_samples` and `state` are as they were.
///
/// ```
/// use sprettuhol::{decode_adpcm_ima_ima4_run, encode_adpcm_ima_ima4_run, AdpcmImaState, Refusal};
///
/// // two blocks of a wave that goes up and down, 40 samples long
/// let wave: Vec<i16> = (0..128).map(|k| 300 * (k % 40).min(40 - k % 40)).collect();
/// let mut bytes = [0; 68];
/// encode_adpcm_ima_ima4_run(&wave, &mut AdpcmImaState::new(), &mut bytes)?;
///
/// let (mut state, mut samples) = (AdpcmImaState::new(), [0; 64]);
/// decode_adpcm_ima_ima4_run(&bytes[..34], &mut state, &mut samples)?;
/// decode_adpcm_ima_ima4_run(&bytes[34..], &mut state, &mut samples)?;
/// assert_eq!(samples[..8], [4834, 4540, 4195, 3872, 3578, 3311, 2998, 2704]);
///
/// // a cut that forgets the state
/// decode_adpcm_ima_ima4_run(&bytes[34..], &mut AdpcmImaState::new(), &mut samples)?;
/// assert_eq!(samples[..8], [4761, 4467, 4122, 3799, 3505, 3238, 2925, 2631]);
///
/// // a byte too few
/// let (mut state, mut samples) = (AdpcmImaState { predictor: 5, step_index: 200 }, [1; 64]);
/// let refused = decode_adpcm_ima_ima4_run(&bytes[..33], &mut state, &mut samples);
/// assert_eq!(refused, Err(Refusal::Blocks));
/// assert_eq!((state.predictor, state.step_index, samples), (5, 200, [1; 64]));
/// # Ok::<(), Refusal>(())
/// ```
#[inline]
pub fn decode_adpcm_ima_ima4_run(
    buf: &[u8],
    state: &mut AdpcmImaState,
    out_samples: &mut [i16],
) -> Result<(), Refusal> {
    answer(ffi::decode_ima4(buf, state.lent(&mut 0), out_samples))
}

/// Encodes a run of 0 to 1,024 ima4 blocks, each from the state that the one before it left. The last
/// state takes the place of `state`; a run of no blocks leaves it as it was.
///
/// # Errors
///
/// [`Refusal::Blocks`], if `samples` is not 64 samples a block, `out_buf` not 34 bytes a block, or
/// there are over 1,024 blocks. Then `out_buf` and `state` are as they were.
///
/// ```
/// use sprettuhol::{encode_adpcm_ima_ima4_run, AdpcmImaState, Refusal};
/// use sprettuhol::{IMA4_BLOCK_BYTES, IMA4_BLOCK_SAMPLES, IMA4_MOST_BLOCKS};
///
/// let (mut state, mut bytes) = (AdpcmImaState { predictor: 100, step_index: 0 }, [1; 68]);
/// encode_adpcm_ima_ima4_run(&[100; 128], &mut state, &mut bytes)?;
/// assert_eq!(bytes, [0; 68]);
///
/// // a block too many
/// const SAMPLES: usize = (IMA4_MOST_BLOCKS + 1) * IMA4_BLOCK_SAMPLES;
/// const BYTES: usize = (IMA4_MOST_BLOCKS + 1) * IMA4_BLOCK_BYTES;
/// let (mut state, mut bytes) = (AdpcmImaState { predictor: 5, step_index: 200 }, [1; BYTES]);
/// let refused = encode_adpcm_ima_ima4_run(&[100; SAMPLES], &mut state, &mut bytes);
/// assert_eq!(refused, Err(Refusal::Blocks));
/// assert_eq!((state.predictor, state.step_index, bytes), (5, 200, [1; BYTES]));
/// # Ok::<(), Refusal>(())
/// ```
#[inline]
pub fn encode_adpcm_ima_ima4_run(
    samples: &[i16],
    state: &mut AdpcmImaState,
    out_buf: &mut [u8],
) -> Result<(), Refusal> {
    answer(ffi::encode_ima4(samples, state.lent(&mut 0), out_buf))
}
