//! The index of a run of ima4 blocks, by which decoding starts at any of them.

use crate::refusal::{answer, Refusal};
use crate::{ffi, metered, AdpcmImaState, IMA4_MOST_BLOCKS};

/// How many bytes the index of a run has, with a state for each `every` blocks: 4, and 3 for each state.
/// It is 0 where [`index_adpcm_ima_ima4`] refuses the number of blocks or `every`.
///
/// ```
/// use sprettuhol::{index_bytes, IMA4_MOST_BLOCKS};
///
/// assert_eq!([index_bytes(0, 1), index_bytes(64, 64), index_bytes(65, 64)], [4, 7, 10]);
/// assert_eq!([index_bytes(1, 0), index_bytes(1, 65), index_bytes(1025, 1)], [0, 0, 0]);
///
/// const MOST: usize = index_bytes(IMA4_MOST_BLOCKS, 1);
/// assert_eq!(MOST, 3076);
/// ```
pub const fn index_bytes(blocks: usize, every: u8) -> usize {
    if blocks > IMA4_MOST_BLOCKS || !matches!(every, 1..=64) {
        return 0;
    }
    4 + 3 * blocks.div_ceil(every as usize)
}

/// Indexes a run of 0 to 1,024 ima4 blocks: writes the decoder's states before block 0 and before each
/// `every`-th after it, all of `out_index`, for [`decode_adpcm_ima_ima4_from`]. The last state takes the
/// place of `state`, and the next run's index starts there; a run of no blocks leaves it as it was.
///
/// An index has [`index_bytes`] bytes: two that count the others, the high one first; 1, the version;
/// `every`; and for each state two of the predictor, the high one first, and one of the step's index. A
/// state is the decoder's own, before it looks at the block's header; the first is `state` as it is
/// given, even with an index above 88.
///
/// An index cannot know whether it is stale: if blocks have changed since, decoding goes on from states
/// that are no longer the run's, and nothing is refused. Call [`reindex_adpcm_ima_ima4`] where you
/// replace blocks. Where others may, keep a name of the run's bytes beside the index, such as a hash,
/// and compare it first.
///
/// # Errors
///
/// [`Refusal::Blocks`], if `buf` is not 34 bytes a block, or there are over 1,024 blocks; after that
/// [`Refusal::Index`], if `every` is not 1 to 64, or `out_index` of another length. Then `out_index` and
/// `state` are as they were.
///
/// ```
/// use sprettuhol::{index_adpcm_ima_ima4, index_bytes, AdpcmImaState, Refusal};
///
/// // three blocks of silence, at 100: the headers say 0, and the state knows better
/// let (mut state, mut index) = (AdpcmImaState { predictor: 100, step_index: 0 }, [1; 10]);
/// assert_eq!(index.len(), index_bytes(3, 2));
/// index_adpcm_ima_ima4(&[0; 102], &mut state, 2, &mut index)?;
/// assert_eq!(index, [0, 8, 1, 2, 0, 100, 0, 0, 100, 0]);
/// assert_eq!((state.predictor, state.step_index), (100, 0));
///
/// let mut state = AdpcmImaState { predictor: -2, step_index: 200 };
/// let mut index = [1; index_bytes(2, 1)];
/// index_adpcm_ima_ima4(&[0; 68], &mut state, 1, &mut index)?;
/// assert_eq!(index, [0, 8, 1, 1, 255, 254, 200, 0, 0, 0]);
///
/// // a state for 0 blocks, a byte too many, and a block that is not whole
/// let (mut state, mut index) = (AdpcmImaState { predictor: 5, step_index: 200 }, [1; 10]);
/// let refused = index_adpcm_ima_ima4(&[0; 68], &mut state, 0, &mut index);
/// assert_eq!(refused, Err(Refusal::Index));
/// let refused = index_adpcm_ima_ima4(&[0; 34], &mut state, 1, &mut index[..8]);
/// assert_eq!(refused, Err(Refusal::Index));
/// let refused = index_adpcm_ima_ima4(&[0; 67], &mut state, 1, &mut index);
/// assert_eq!(refused, Err(Refusal::Blocks));
/// assert_eq!((state.predictor, state.step_index, index), (5, 200, [1; 10]));
/// # Ok::<(), Refusal>(())
/// ```
#[inline]
pub fn index_adpcm_ima_ima4(
    buf: &[u8],
    state: &mut AdpcmImaState,
    every: u8,
    out_index: &mut [u8],
) -> Result<(), Refusal> {
    answer(ffi::ima4_index(buf, every, state.lent(&mut 0), out_index))
}

/// Indexes a run again, whose blocks from block `from` on were replaced, one for one.
///
/// It starts from the last state that `index` keeps at or before that block, which is believed, and
/// writes the states behind that block. All else of `index` is as it was.
///
/// # Errors
///
/// Those of [`decode_adpcm_ima_ima4_from`], but for what is of samples. Then `index` is as it was.
///
/// ```
/// use sprettuhol::{index_adpcm_ima_ima4, reindex_adpcm_ima_ima4, AdpcmImaState, Refusal};
///
/// // three blocks of silence, at 100
/// let (mut bytes, mut index) = ([0; 102], [0; 13]);
/// let mut state = AdpcmImaState { predictor: 100, step_index: 0 };
/// index_adpcm_ima_ima4(&bytes, &mut state, 1, &mut index)?;
/// assert_eq!(index[4..], [0, 100, 0, 0, 100, 0, 0, 100, 0]);
///
/// // in the place of block 1 one at 256
/// bytes[34] = 1;
/// reindex_adpcm_ima_ima4(&bytes, 1, &mut index)?;
/// assert_eq!(index[4..], [0, 100, 0, 0, 100, 0, 1, 0, 0]);
///
/// // there is no block 3; and two blocks have another index
/// let before = index;
/// assert_eq!(reindex_adpcm_ima_ima4(&bytes, 3, &mut index), Err(Refusal::Index));
/// assert_eq!(reindex_adpcm_ima_ima4(&bytes[..68], 1, &mut index), Err(Refusal::Index));
/// assert_eq!(index, before);
/// # Ok::<(), Refusal>(())
/// ```
#[inline]
pub fn reindex_adpcm_ima_ima4(buf: &[u8], from: usize, index: &mut [u8]) -> Result<(), Refusal> {
    answer(ffi::ima4_reindex(buf, from, index))
}

/// Decodes an indexed run from block `from` on, counted from 0. Answers the state behind the run.
///
/// It starts from the last state that `index` keeps at or before that block, so it decodes at most
/// `every` - 1 blocks more. The states are believed, whatever bytes they are; an index that is stale
/// ([`index_adpcm_ima_ima4`]) is not refused.
///
/// # Errors
///
/// [`Refusal::Blocks`], if `buf` is not 34 bytes a block, or there are over 1,024 blocks; after that
/// [`Refusal::Index`], if the length or the first four bytes of `index` are not those of an index of so
/// many blocks, or there is no block `from`; after that [`Refusal::Blocks`], if `out_samples` is not 64
/// samples for each block from there on. Then `out_samples` is as it was.
///
/// ```
/// use sprettuhol::{decode_adpcm_ima_ima4_from, index_adpcm_ima_ima4, index_bytes};
/// use sprettuhol::{decode_adpcm_ima_ima4_run, encode_adpcm_ima_ima4_run, AdpcmImaState, Refusal};
///
/// // three blocks of a wave that goes up and down, 40 samples long
/// let wave: Vec<i16> = (0..192).map(|k| 300 * (k % 40).min(40 - k % 40)).collect();
/// let (mut bytes, mut index) = ([0; 102], [0; index_bytes(3, 2)]);
/// encode_adpcm_ima_ima4_run(&wave, &mut AdpcmImaState::new(), &mut bytes)?;
/// index_adpcm_ima_ima4(&bytes, &mut AdpcmImaState::new(), 2, &mut index)?;
///
/// let (mut last, mut whole) = (AdpcmImaState::new(), [0; 192]);
/// decode_adpcm_ima_ima4_run(&bytes, &mut last, &mut whole)?;
/// let mut samples = [0; 128];
/// assert_eq!(decode_adpcm_ima_ima4_from(&bytes, &index, 1, &mut samples)?, last);
/// assert_eq!(samples, whole[64..]);
/// assert_eq!(samples[..8], [4834, 4540, 4195, 3872, 3578, 3311, 2998, 2704]);
///
/// // no block 3, an index of another version, and samples for one block too many
/// let mut samples = [1; 128];
/// let refused = decode_adpcm_ima_ima4_from(&bytes, &index, 3, &mut samples);
/// assert_eq!(refused, Err(Refusal::Index));
/// let refused = decode_adpcm_ima_ima4_from(&bytes, &[0, 5, 2, 64, 0, 0, 0], 1, &mut samples);
/// assert_eq!(refused, Err(Refusal::Index));
/// let refused = decode_adpcm_ima_ima4_from(&bytes, &index, 2, &mut samples);
/// assert_eq!(refused, Err(Refusal::Blocks));
/// assert_eq!(samples, [1; 128]);
/// # Ok::<(), Refusal>(())
/// ```
#[inline]
pub fn decode_adpcm_ima_ima4_from(
    buf: &[u8],
    index: &[u8],
    from: usize,
    out_samples: &mut [i16],
) -> Result<AdpcmImaState, Refusal> {
    metered::decode_adpcm_ima_ima4_from(buf, index, from, out_samples).map(AdpcmImaState::from)
}
