//! Runs of ima4 blocks, of several contents, from several states. What the oracle encoded is decoded
//! from each of the states too, and so is what nobody encoded.

use crate::blocks::{State, BYTES, MOST, SAMPLES};
use crate::calls::{Call, DECODE, ENCODE};
use crate::outcome::Outcome;
use crate::parallel::each;
use crate::report::Report;
use crate::signal::{noise, speech, Random};
use std::fmt::Debug;

pub const STATES: [State; 8] = [
    (0, 0),
    (0, 88),
    (0, 200),
    (i16::MIN, 0),
    (i16::MAX, 0),
    (i16::MIN, 255),
    (i16::MAX, 88),
    (-12345, 44),
];

/// Compared are the number, all that comes out, and both numbers of the state.
pub fn reports(progress: bool) -> [Report; 2] {
    let encoded = Report::start(progress, "encode_ima4 runs");
    let decoded = Report::start(progress, "decode_ima4 runs");
    let lengths = [0, 1, 2, 7, MOST].into_iter();
    let parts = lengths.flat_map(|blocks| (1..=8).map(move |seed| (blocks, seed)));
    each(parts, |(blocks, seed)| {
        for (name, samples) in contents(seed, blocks * SAMPLES) {
            for state in STATES {
                let name = (name, seed, blocks);
                let bytes = both(&encoded, name, &ENCODE, &samples, state);
                decode(&decoded, ("encoded", name, state), &bytes);
                decode(&decoded, ("spoilt", name, state), &spoilt(&bytes, seed));
            }
        }
        let bytes = random(seed, blocks * BYTES);
        decode(&decoded, ("random", seed, blocks), &bytes);
    });
    [encoded, decoded]
}

fn decode(report: &Report, name: impl Debug, bytes: &[u8]) {
    for state in STATES {
        both(report, &name, &DECODE, bytes, state);
    }
}

/// Compares a run, and hands back what the oracle made of it.
pub fn both<A, B: Copy + PartialEq + Debug + From<u8>, S: Copy + PartialEq + Debug>(
    report: &Report,
    name: impl Debug,
    call: &Call<A, B, S>,
    input: &[A],
    state: S,
) -> Vec<B> {
    let len = input.len() / call.from * call.to;
    let ours = Outcome::of(len, state, |state, out| (call.ours)(input, state, out));
    let oracle = Outcome::of(len, state, |state, out| (call.oracle)(input, state, out));
    ours.compare(report, (name, state), &oracle);
    oracle.buffer().to_vec()
}

pub fn contents(seed: u64, len: usize) -> [(&'static str, Vec<i16>); 4] {
    [
        ("speech", speech(seed, len)),
        ("noise", noise(seed, len)),
        ("clipped", square(seed, len)),
        ("silence", vec![0; len]),
    ]
}

/// From one end of the scale to the other, and back.
fn square(seed: u64, len: usize) -> Vec<i16> {
    let half = 5 * seed as usize;
    let sample = |k| [i16::MAX, i16::MIN][k / half % 2];
    (0..len).map(sample).collect()
}

pub fn random(seed: u64, len: usize) -> Vec<u8> {
    let bytes = Random::new(seed).map(|number| (number >> 24) as u8);
    bytes.take(len).collect()
}

/// With a wrong bit in some bytes, headers among them: the state is kept before one block, and not
/// before the next.
pub fn spoilt(bytes: &[u8], seed: u64) -> Vec<u8> {
    let spoil = |(&byte, random): (&u8, u32)| match random >> 27 {
        0 => byte ^ 1 << (random % 8),
        _ => byte,
    };
    bytes.iter().zip(Random::new(seed)).map(spoil).collect()
}
