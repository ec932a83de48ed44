//! The C interface of the proved library, as safe functions; nothing outside of this file is unsafe.
//! tests/differential, tests/peers and bench use it too, so that what they compare and time is what is
//! shipped.

mod c {
    extern "C" {
        #[cfg(test)]
        pub fn spr_version() -> u32;
        pub fn spr_decode_ulaw(encoded: u8) -> i16;
        pub fn spr_encode_ulaw(linear: i16) -> u8;
        pub fn spr_decode_alaw(encoded: u8) -> i16;
        pub fn spr_encode_alaw(linear: i16) -> u8;
        pub fn spr_decode_adpcm_ima(
            nibble: u8,
            predictor: *mut i16,
            step_index: *mut u8,
            clipped: *mut u32,
        ) -> i16;
        pub fn spr_encode_adpcm_ima(
            sample: i16,
            predictor: *mut i16,
            step_index: *mut u8,
            clipped: *mut u32,
        ) -> u8;
        pub fn spr_decode_ima4(
            bytes: *const u8,
            bytes_len: usize,
            predictor: *mut i16,
            step_index: *mut u8,
            clipped: *mut u32,
            samples: *mut i16,
            samples_len: usize,
        ) -> u8;
        pub fn spr_encode_ima4(
            samples: *const i16,
            samples_len: usize,
            predictor: *mut i16,
            step_index: *mut u8,
            clipped: *mut u32,
            bytes: *mut u8,
            bytes_len: usize,
        ) -> u8;
        pub fn spr_ima4_index(
            bytes: *const u8,
            bytes_len: usize,
            every: u8,
            predictor: *mut i16,
            step_index: *mut u8,
            clipped: *mut u32,
            record: *mut u8,
            record_len: usize,
        ) -> u8;
        pub fn spr_ima4_reindex(
            bytes: *const u8,
            bytes_len: usize,
            from: usize,
            record: *mut u8,
            record_len: usize,
        ) -> u8;
        pub fn spr_decode_ima4_from(
            bytes: *const u8,
            bytes_len: usize,
            record: *const u8,
            record_len: usize,
            from: usize,
            predictor: *mut i16,
            step_index: *mut u8,
            clipped: *mut u32,
            samples: *mut i16,
            samples_len: usize,
        ) -> u8;
        pub fn spr_decode_ms(
            channels: u8,
            block: *const u8,
            block_len: usize,
            samples: *mut i16,
            samples_len: usize,
            clipped: *mut u32,
        ) -> u8;
        pub fn spr_decode_ms_lenient(
            channels: u8,
            block: *const u8,
            block_len: usize,
            samples: *mut i16,
            samples_len: usize,
            clipped: *mut u32,
        ) -> u8;
        pub fn spr_encode_ms(
            channels: u8,
            samples: *const i16,
            samples_len: usize,
            predictors: *mut i16,
            step_indices: *mut u8,
            clipped: *mut u32,
            block: *mut u8,
            block_len: usize,
        ) -> u8;
        pub fn spr_repack_ms(
            channels: u8,
            block: *const u8,
            block_len: usize,
            repacked: *mut u8,
            repacked_len: usize,
            changed: *mut u8,
        ) -> u8;
        pub fn spr_repack_ms_lenient(
            channels: u8,
            block: *const u8,
            block_len: usize,
            repacked: *mut u8,
            repacked_len: usize,
            changed: *mut u8,
        ) -> u8;
        pub fn spr_loss(
            before: *const i16,
            before_len: usize,
            after: *const i16,
            after_len: usize,
            count: *mut u32,
            first: *mut u32,
            peak: *mut u16,
        ) -> u8;
    }
}

// SAFETY of the laws: numbers in, a number out, and the proved functions ask nothing of their input.

#[cfg(test)]
pub fn version() -> u32 {
    unsafe { c::spr_version() }
}

#[inline(always)]
pub fn decode_ulaw(encoded: u8) -> i16 {
    unsafe { c::spr_decode_ulaw(encoded) }
}

#[inline(always)]
pub fn encode_ulaw(linear: i16) -> u8 {
    unsafe { c::spr_encode_ulaw(linear) }
}

#[inline(always)]
pub fn decode_alaw(encoded: u8) -> i16 {
    unsafe { c::spr_decode_alaw(encoded) }
}

#[inline(always)]
pub fn encode_alaw(linear: i16) -> u8 {
    unsafe { c::spr_encode_alaw(linear) }
}

/// A state that is lent for a call: the predictor, the step index and the count of clipped steps.
pub type Lent<'a> = (&'a mut i16, &'a mut u8, &'a mut u32);

// SAFETY of IMA ADPCM: the state is three numbers of the caller's, borrowed for the call by nobody else;
// the proved functions read and write these, and ask nothing of what they are.

#[inline(always)]
pub fn decode_adpcm_ima(nibble: u8, (predictor, step_index, clipped): Lent) -> i16 {
    unsafe { c::spr_decode_adpcm_ima(nibble, predictor, step_index, clipped) }
}

#[inline(always)]
pub fn encode_adpcm_ima(sample: i16, (predictor, step_index, clipped): Lent) -> u8 {
    unsafe { c::spr_encode_adpcm_ima(sample, predictor, step_index, clipped) }
}

// SAFETY of ima4: each buffer goes with its length, the proved functions keep within it, and nobody else
// borrows what they write. They ask nothing of the lengths, nor of what any of it holds.

#[inline(always)]
pub fn decode_ima4(
    bytes: &[u8],
    (predictor, step_index, clipped): Lent,
    samples: &mut [i16],
) -> u8 {
    let (len, samples_len) = (bytes.len(), samples.len());
    let (bytes, samples) = (bytes.as_ptr(), samples.as_mut_ptr());
    unsafe {
        c::spr_decode_ima4(
            bytes,
            len,
            predictor,
            step_index,
            clipped,
            samples,
            samples_len,
        )
    }
}

#[inline(always)]
pub fn encode_ima4(
    samples: &[i16],
    (predictor, step_index, clipped): Lent,
    bytes: &mut [u8],
) -> u8 {
    let (len, bytes_len) = (samples.len(), bytes.len());
    let (samples, bytes) = (samples.as_ptr(), bytes.as_mut_ptr());
    unsafe {
        c::spr_encode_ima4(
            samples, len, predictor, step_index, clipped, bytes, bytes_len,
        )
    }
}

// SAFETY of a seek index: as of ima4. A record may hold anything.

#[inline(always)]
pub fn ima4_index(
    bytes: &[u8],
    every: u8,
    (predictor, step_index, clipped): Lent,
    record: &mut [u8],
) -> u8 {
    let (len, record_len) = (bytes.len(), record.len());
    let (bytes, record) = (bytes.as_ptr(), record.as_mut_ptr());
    unsafe {
        c::spr_ima4_index(
            bytes, len, every, predictor, step_index, clipped, record, record_len,
        )
    }
}

#[inline(always)]
pub fn ima4_reindex(bytes: &[u8], from: usize, record: &mut [u8]) -> u8 {
    let (len, record_len) = (bytes.len(), record.len());
    let (bytes, record) = (bytes.as_ptr(), record.as_mut_ptr());
    unsafe { c::spr_ima4_reindex(bytes, len, from, record, record_len) }
}

#[inline(always)]
pub fn decode_ima4_from(
    bytes: &[u8],
    record: &[u8],
    from: usize,
    (predictor, step_index, clipped): Lent,
    samples: &mut [i16],
) -> u8 {
    let (len, record_len, samples_len) = (bytes.len(), record.len(), samples.len());
    let (bytes, record, samples) = (bytes.as_ptr(), record.as_ptr(), samples.as_mut_ptr());
    unsafe {
        c::spr_decode_ima4_from(
            bytes,
            len,
            record,
            record_len,
            from,
            predictor,
            step_index,
            clipped,
            samples,
            samples_len,
        )
    }
}

// SAFETY of MS blocks: as of ima4. Each pointer to states or counts is to eight numbers, whatever the channel
// number is.

#[inline(always)]
pub fn decode_ms(channels: u8, block: &[u8], samples: &mut [i16], clipped: &mut [u32; 8]) -> u8 {
    let (len, samples_len) = (block.len(), samples.len());
    let (block, samples) = (block.as_ptr(), samples.as_mut_ptr());
    let clipped = clipped.as_mut_ptr();
    unsafe { c::spr_decode_ms(channels, block, len, samples, samples_len, clipped) }
}

#[inline(always)]
pub fn decode_ms_lenient(
    channels: u8,
    block: &[u8],
    samples: &mut [i16],
    clipped: &mut [u32; 8],
) -> u8 {
    let (len, samples_len) = (block.len(), samples.len());
    let (block, samples) = (block.as_ptr(), samples.as_mut_ptr());
    let clipped = clipped.as_mut_ptr();
    unsafe { c::spr_decode_ms_lenient(channels, block, len, samples, samples_len, clipped) }
}

/// Eight states that are lent for a call, as three arrays.
pub type LentEight<'a> = (&'a mut [i16; 8], &'a mut [u8; 8], &'a mut [u32; 8]);

#[inline(always)]
pub fn encode_ms(
    channels: u8,
    samples: &[i16],
    (predictors, step_indices, clipped): LentEight,
    block: &mut [u8],
) -> u8 {
    let (len, block_len) = (samples.len(), block.len());
    let (samples, block) = (samples.as_ptr(), block.as_mut_ptr());
    let (predictors, indices) = (predictors.as_mut_ptr(), step_indices.as_mut_ptr());
    let clipped = clipped.as_mut_ptr();
    unsafe {
        c::spr_encode_ms(
            channels, samples, len, predictors, indices, clipped, block, block_len,
        )
    }
}

#[inline(always)]
pub fn repack_ms(channels: u8, block: &[u8], changed: &mut u8, repacked: &mut [u8]) -> u8 {
    let (len, repacked_len) = (block.len(), repacked.len());
    let (block, repacked) = (block.as_ptr(), repacked.as_mut_ptr());
    unsafe { c::spr_repack_ms(channels, block, len, repacked, repacked_len, changed) }
}

#[inline(always)]
pub fn repack_ms_lenient(channels: u8, block: &[u8], changed: &mut u8, repacked: &mut [u8]) -> u8 {
    let (len, repacked_len) = (block.len(), repacked.len());
    let (block, repacked) = (block.as_ptr(), repacked.as_mut_ptr());
    unsafe { c::spr_repack_ms_lenient(channels, block, len, repacked, repacked_len, changed) }
}

// SAFETY of the loss report: as of ima4. The report is three numbers of the caller's, borrowed for the
// call by nobody else.

#[inline(always)]
pub fn loss(before: &[i16], after: &[i16], count: &mut u32, first: &mut u32, peak: &mut u16) -> u8 {
    let (len, after_len) = (before.len(), after.len());
    let (before, after) = (before.as_ptr(), after.as_ptr());
    unsafe { c::spr_loss(before, len, after, after_len, count, first, peak) }
}
