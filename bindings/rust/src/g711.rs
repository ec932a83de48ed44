//! The two laws of G.711. A code is a byte, a sample a signed 16-bit number; no call refuses anything.

use crate::ffi;

/// The sample that a mu-law code stands for.
///
/// Every code is taken. Two of them stand for 0.
///
/// ```
/// use sprettuhol::decode_ulaw;
///
/// assert_eq!(decode_ulaw(0xce), 988);
/// assert_eq!(decode_ulaw(0x00), -32124);
/// assert_eq!([decode_ulaw(0x7f), decode_ulaw(0xff)], [0, 0]);
/// ```
#[inline]
pub fn decode_ulaw(encoded: u8) -> i16 {
    ffi::decode_ulaw(encoded)
}

/// The mu-law code of a sample.
///
/// Every sample is taken. Coding loses, and above 32,635 and below -32,636 it clips.
///
/// ```
/// use sprettuhol::{decode_ulaw, encode_ulaw};
///
/// assert_eq!(encode_ulaw(0), 0xff);
/// assert_eq!(encode_ulaw(-4), 0x7f);
/// assert_eq!(decode_ulaw(encode_ulaw(1000)), 988);
/// assert_eq!(decode_ulaw(encode_ulaw(32767)), 32124);
/// ```
#[inline]
pub fn encode_ulaw(linear: i16) -> u8 {
    ffi::encode_ulaw(linear)
}

/// The sample that an A-law code stands for.
///
/// Every code is taken. None of them stands for 0.
///
/// ```
/// use sprettuhol::decode_alaw;
///
/// assert_eq!(decode_alaw(0xd5), 8);
/// assert_eq!(decode_alaw(0x55), -8);
/// assert_eq!(decode_alaw(0xaa), 32256);
/// ```
#[inline]
pub fn decode_alaw(encoded: u8) -> i16 {
    ffi::decode_alaw(encoded)
}

/// The A-law code of a sample.
///
/// Every sample is taken. Coding loses: silence comes back as 8.
///
/// ```
/// use sprettuhol::{decode_alaw, encode_alaw};
///
/// assert_eq!(encode_alaw(1000), 0xfa);
/// assert_eq!(decode_alaw(encode_alaw(1000)), 1008);
/// assert_eq!(decode_alaw(encode_alaw(0)), 8);
/// assert_eq!(encode_alaw(-32768), 0x2a);
/// ```
#[inline]
pub fn encode_alaw(linear: i16) -> u8 {
    ffi::encode_alaw(linear)
}
