//! The two laws, one value a call.

use crate::ffi;
use crate::timing::{row, shuffled, Row};
use audio_codec_algorithms as oracle;

const COPY: Option<&str> =
    Some("copies its table of 512 bytes: a constant array is rebuilt where it is read");
const CALL: Option<&str> = Some("the call itself: ours is at most 1.05 of the Rust behind a call");

pub fn rows() -> Vec<Row> {
    // as many codes as there are samples, each code as often as any other
    let codes = shuffled((0..=u16::MAX).map(|n| n as u8).collect());
    let samples = shuffled((i16::MIN..=i16::MAX).collect());
    vec![
        row(
            "decode_ulaw",
            &codes,
            ffi::decode_ulaw,
            oracle::decode_ulaw,
            entry,
            COPY,
        ),
        row(
            "encode_ulaw",
            &samples,
            ffi::encode_ulaw,
            oracle::encode_ulaw,
            no_entry,
            CALL,
        ),
        row(
            "decode_alaw",
            &codes,
            ffi::decode_alaw,
            oracle::decode_alaw,
            entry,
            COPY,
        ),
        row(
            "encode_alaw",
            &samples,
            ffi::encode_alaw,
            oracle::encode_alaw,
            no_entry,
            CALL,
        ),
    ]
}

/// A decoder reads the table at its code.
fn entry(code: u8, table: &[u16; 256]) -> u8 {
    code ^ table[usize::from(code)] as u8
}

fn no_entry(sample: i16, []: &[u16; 0]) -> i16 {
    sample
}
