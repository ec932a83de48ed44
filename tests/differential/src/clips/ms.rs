//! MS blocks of one to eight channels. The decoder tells a count for each channel, and 0 for those that are not
//! there. The encoder's counts go on from those that its states have.

use super::ours::{self, States};
use super::{expected, COUNTS};
use crate::ms::block::oracle::fitting;
use crate::ms::block::{self, eight};
use crate::ms::contents::{contents, states};
use crate::ms::lengths::{self, taken, CHANNELS, LONGEST};
use crate::ms::readings::{each_block, each_length, head, REFUSED};
use crate::ms::strict::refuses;
use crate::outcome::Outcome;
use crate::parallel::each;
use crate::report::Report;
use crate::runs::{random, spoilt};
use crate::signal::noise;
use std::array;
use std::fmt::Debug;

type Decode = fn(u8, &[u8], &mut [u32; 8], &mut [i16]) -> u8;
type Encode = fn(u8, &[i16], &mut States, &mut [u8]) -> u8;

/// From here on a block is long. Of these only the longest are gone over, for they take longest.
const LONG: usize = 60_000;
/// What the counts are before a call that only writes them, for a refused one to leave.
const LENT: [u32; 8] = [0x5a5a_5a5a; 8];

/// Compared are the number, all that comes out, and the counts or the states of all eight channels.
pub fn reports(progress: bool) -> [Report; 3] {
    let encoded = Report::start(progress, "encode_ms clips");
    let decoded = Report::start(progress, "decode_ms clips");
    each(sizes(), |(channels, block)| {
        let (seed, len) = (block as u64 % 8 + 1, fitting(channels, block));
        for (turn, (name, samples)) in contents(channels, seed, len).into_iter().enumerate() {
            let states = counting(states()[turn % 4], turn);
            let bytes = encode(&encoded, name, channels, &samples, states, block);
            decode(&decoded, ("encoded", name), channels, &bytes, len);
            let bytes = spoilt(&bytes, seed);
            decode(&decoded, ("spoilt", name), channels, &bytes, len);
        }
        decode(&decoded, "random", channels, &random(seed, block), len);
    });
    each_block(|channels, block| {
        let len = fitting(channels, block.len());
        decode(&decoded, head(block), channels, block, len);
    });
    [encoded, decoded, unfitting(progress)]
}

/// The channel number and the length of each block that is taken, of the long ones the longest.
fn sizes() -> impl Iterator<Item = (u8, usize)> {
    let longest = |channels: u8, block| block + 4 * usize::from(channels) > 65_535;
    let sizes = taken().into_iter();
    sizes.filter(move |&(channels, block)| block < LONG || longest(channels, block))
}

/// Each channel has one of the counts, another one in the next turn.
fn counting(states: block::States, turn: usize) -> States {
    array::from_fn(|channel| {
        let (predictor, index) = states[channel];
        (predictor, index, COUNTS[(channel + turn) % COUNTS.len()])
    })
}

/// All lengths but the long ones, and all channel numbers, those that are refused and those that fit.
fn unfitting(progress: bool) -> Report {
    let report = Report::start(progress, "ms clips lengths");
    each_length(|block| {
        if block.len() >= LONG {
            return;
        }
        for channels in CHANNELS {
            for len in lengths::samples(channels, block.len()) {
                decode(&report, head(block), channels, block, len);
            }
        }
    });
    let noise = noise(1, 4 * LONGEST);
    let states = counting(eight([(-12345, 200), (i16::MAX, 255)]), 2);
    let blocks = lengths::blocks().into_iter();
    each(blocks.filter(|&block| block < LONG), |block| {
        for channels in CHANNELS {
            for len in lengths::samples(channels, block) {
                encode(&report, "noise", channels, &noise[..len], states, block);
            }
        }
    });
    report
}

/// By both readings. Strict reading is to refuse what it has to, and to tell no count then.
fn decode(report: &Report, name: impl Debug, channels: u8, block: &[u8], len: usize) {
    let by = |decode: Decode| {
        Outcome::of(len, LENT, |clipped, samples| {
            decode(channels, block, clipped, samples)
        })
    };
    let lenient = by(expected::decode_block);
    let input = (name, channels, block.len(), len);
    by(ours::decode_block_leniently).compare(report, ("lenient", &input), &lenient);
    let refused = lenient.is_done() && refuses(channels, block);
    let strict = if refused {
        by(|_, _, _, _| REFUSED)
    } else {
        lenient
    };
    by(ours::decode_block).compare(report, ("strict", &input), &strict);
}

/// The call is lent a buffer for so many bytes. What the oracle wrote there is handed back.
fn encode(
    report: &Report,
    name: impl Debug,
    channels: u8,
    samples: &[i16],
    states: States,
    block_len: usize,
) -> Vec<u8> {
    let by = |encode: Encode| {
        Outcome::of(block_len, states, |states, block| {
            encode(channels, samples, states, block)
        })
    };
    let expected = by(expected::encode_block);
    let input = ("encode", name, channels, samples.len(), states, block_len);
    by(ours::encode_block).compare(report, input, &expected);
    expected.buffer().to_vec()
}
