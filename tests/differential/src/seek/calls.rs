//! The three calls of a seek index, in one shape for both sides. A record keeps the decoder's state before
//! each `every`th block of a run, and `from` is the number of a block. What comes back is 0 when all is done.
//! bench/ uses this file too.

#[path = "plain.rs"]
pub mod plain;

pub mod ours {
    use crate::blocks::State;
    use crate::ffi;

    #[inline(always)]
    pub fn index(bytes: &[u8], every: u8, (predictor, index): &mut State, record: &mut [u8]) -> u8 {
        ffi::ima4_index(bytes, every, (predictor, index, &mut 0), record)
    }

    #[inline(always)]
    pub fn decode(
        bytes: &[u8],
        record: &[u8],
        from: usize,
        (predictor, index): &mut State,
        samples: &mut [i16],
    ) -> u8 {
        ffi::decode_ima4_from(bytes, record, from, (predictor, index, &mut 0), samples)
    }

    #[inline(always)]
    pub fn reindex(bytes: &[u8], from: usize, record: &mut [u8]) -> u8 {
        ffi::ima4_reindex(bytes, from, record)
    }
}
