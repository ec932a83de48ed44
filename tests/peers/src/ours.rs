//! The proved library, on whole streams. An index above 88 in an MS block is one of the things to compare, so
//! it is read as 88, and not refused.

use crate::codec::{Codec, Coded};
use crate::ffi;

pub fn decode(codec: Codec, coded: &Coded) -> Vec<i16> {
    let blocks = coded.bytes.len() / coded.block;
    let mut samples = vec![0; blocks * codec.samples(coded.block)];
    decode_into(codec, coded, &mut samples);
    samples
}

/// As many whole blocks as there are samples for.
pub fn encode(codec: Codec, samples: &[i16], block: usize) -> Coded {
    let bytes = vec![0; samples.len() / codec.samples(block) * block];
    let mut coded = Coded { bytes, block };
    encode_into(codec, samples, &mut coded);
    coded
}

/// How many blocks a call takes: of codes all, one at a time.
fn together(codec: Codec) -> usize {
    match codec {
        Codec::Ms(_) => 1,
        Codec::Ima4 => 1024,
        _ => usize::MAX,
    }
}

pub fn decode_into(codec: Codec, coded: &Coded, samples: &mut [i16]) {
    let Coded { bytes, block } = coded;
    let (most, each) = (together(codec), codec.samples(*block));
    let (mut predictor, mut index, mut clipped) = (0, 0, 0);
    let places = samples.chunks_mut(most.saturating_mul(each));
    for (bytes, samples) in bytes.chunks(most.saturating_mul(*block)).zip(places) {
        done(match codec {
            Codec::Ulaw => law(bytes, samples, ffi::decode_ulaw),
            Codec::Alaw => law(bytes, samples, ffi::decode_alaw),
            Codec::Ms(channels) => ffi::decode_ms_lenient(channels, bytes, samples, &mut [0; 8]),
            Codec::Ima4 => {
                let state = (&mut predictor, &mut index, &mut clipped);
                ffi::decode_ima4(bytes, state, samples)
            }
        });
    }
}

/// Each block from the state behind the one before.
pub fn encode_into(codec: Codec, samples: &[i16], coded: &mut Coded) {
    let Coded { bytes, block } = coded;
    let (most, each) = (together(codec), codec.samples(*block));
    let (mut predictors, mut indices, mut clipped) = ([0; 8], [0; 8], [0; 8]);
    let samples = &samples[..bytes.len() / *block * each];
    let runs = samples.chunks(most.saturating_mul(each));
    for (run, bytes) in runs.zip(bytes.chunks_mut(most.saturating_mul(*block))) {
        done(match codec {
            Codec::Ulaw => law(run, bytes, ffi::encode_ulaw),
            Codec::Alaw => law(run, bytes, ffi::encode_alaw),
            Codec::Ms(wide) => {
                let states = (&mut predictors, &mut indices, &mut clipped);
                ffi::encode_ms(wide, run, states, bytes)
            }
            Codec::Ima4 => {
                let state = (&mut predictors[0], &mut indices[0], &mut clipped[0]);
                ffi::encode_ima4(run, state, bytes)
            }
        });
    }
}

fn law<I: Copy, O>(from: &[I], to: &mut [O], call: impl Fn(I) -> O) -> u8 {
    for (to, &from) in to.iter_mut().zip(from) {
        *to = call(from);
    }
    0
}

pub fn done(refusal: u8) {
    assert_eq!(refusal, 0, "our library refused what was to be compared");
}
