//! What others do in place of our law encoders.

use crate::codec::Codec;
use crate::ffi;

type Encode = fn(Codec, i16) -> u8;

/// Computed here, so that a reason is only given where it yields the peer's code of every sample.
pub fn reason(codec: Codec, samples: &[i16], theirs: &[u8]) -> Option<&'static str> {
    let rules: [(&str, Encode); 4] = [
        ("negates a negative, then shifts", negated),
        (
            "takes the nearest decoded sample, after a shift by 2",
            nearest,
        ),
        ("rounds, to 14 bits (mu) or 13 (A)", |codec, sample| {
            ours(codec, rounded(codec, sample))
        }),
        (
            "rounds, to 14 bits (mu) or 13 (A), and negates a negative",
            |codec, sample| negated(codec, rounded(codec, sample)),
        ),
    ];
    let codes = |rule: Encode| samples.iter().map(move |&sample| rule(codec, sample));
    let mut rules = rules.into_iter();
    let found = rules.find(|(_, rule)| codes(*rule).eq(theirs.iter().copied()));
    found.map(|(words, _)| words)
}

fn ours(codec: Codec, sample: i16) -> u8 {
    match codec {
        Codec::Ulaw => ffi::encode_ulaw(sample),
        _ => ffi::encode_alaw(sample),
    }
}

fn negated(codec: Codec, sample: i16) -> u8 {
    let sign = if sample < 0 { 0x80 } else { 0 };
    ours(codec, sample.saturating_abs()) ^ sign
}

fn rounded(codec: Codec, sample: i16) -> i16 {
    let bits = if codec == Codec::Ulaw { 2 } else { 3 };
    let sum = i32::from(sample) + (1 << (bits - 1));
    ((sum >> bits).min((32768 >> bits) - 1) << bits) as i16
}

/// From one code to the next halfway between what they decode to, in fourths and rounded.
fn nearest(codec: Codec, sample: i16) -> u8 {
    let (mask, decode): (u8, fn(u8) -> i16) = match codec {
        Codec::Ulaw => (0xff, ffi::decode_ulaw),
        _ => (0xd5, ffi::decode_alaw),
    };
    let value = |code: u8| i32::from(decode(code ^ mask));
    let fourth = i32::from(sample >> 2);
    let below = |code: &u8| fourth.abs() < (value(*code) + value(code + 1) + 4) >> 3;
    let code = (0..127).find(below).unwrap_or(127);
    code ^ mask ^ if fourth < 0 { 0x80 } else { 0 }
}
