//! The two laws. Their whole domain is small, all 256 codes and all 65,536 samples, so every run
//! compares all of it, the gate's too.

use crate::ffi;
use crate::report::{compare, Report};
use audio_codec_algorithms as oracle;

pub fn reports(progress: bool) -> Vec<Report> {
    let decoder = |name, ours: fn(u8) -> i16, oracle: fn(u8) -> i16| {
        compare(progress, name, 0..=u8::MAX, ours, oracle)
    };
    let encoder = |name, ours: fn(i16) -> u8, oracle: fn(i16) -> u8| {
        compare(progress, name, i16::MIN..=i16::MAX, ours, oracle)
    };
    vec![
        decoder("decode_ulaw", ffi::decode_ulaw, oracle::decode_ulaw),
        encoder("encode_ulaw", ffi::encode_ulaw, oracle::encode_ulaw),
        decoder("decode_alaw", ffi::decode_alaw, oracle::decode_alaw),
        encoder("encode_alaw", ffi::encode_alaw, oracle::encode_alaw),
    ]
}
