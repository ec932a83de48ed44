//! What others do in place of our rules of IMA ADPCM, computed here, so that a reason is only given where
//! it yields all of the peer's answer.

use crate::codec::{Codec, Coded};
use crate::ffi;
use crate::ours;

/// A set of such things: a bit each.
#[derive(Clone, Copy)]
pub struct Rule(pub u8);

const QUOTIENT: u8 = 1;
const PRODUCT: u8 = 2;
const LEFT: u8 = 4;
const ZERO: u8 = 8;
const OUT: u8 = 16;
const RELOAD: u8 = 32;
const WORDS: [&str; 6] = [
    "a difference d is coded as the magnitude min(7, floor 4d/s)",
    "the magnitude m moves by floor (2m+1)s/8",
    "the right header has the left channel's first sample",
    "an index above 88 is read as 0",
    "a block with an index above 88 is left out, and of MS blocks the rest of the same 4,096 bytes",
    "every block starts from its header, none from the state before it",
];

type State = (i16, u8);

impl Rule {
    /// The smallest set of which this holds.
    pub fn reason(right: impl Fn(Rule) -> bool) -> Option<String> {
        let rule = (0..64).map(Rule).find(|&rule| right(rule))?;
        let words = WORDS.iter().enumerate();
        let words = words
            .filter(|(n, _)| rule.has(1 << n))
            .map(|(_, words)| *words);
        Some(words.collect::<Vec<_>>().join("; "))
    }

    fn has(self, bit: u8) -> bool {
        self.0 & bit != 0
    }

    pub fn decode(self, codec: Codec, coded: &Coded) -> Vec<i16> {
        match codec {
            Codec::Ms(channels) => {
                let packets = coded.bytes.chunks(4096 / coded.block * coded.block);
                let blocks = packets.flat_map(|packet| {
                    let blocks = packet.chunks(coded.block);
                    blocks.map_while(|block| self.decode_block(channels.into(), block))
                });
                blocks.flatten().collect()
            }
            Codec::Ima4 => self.decode_ima4(coded),
            _ => ours::decode(codec, coded),
        }
    }

    /// None, if the block is left out.
    fn decode_block(self, channels: usize, block: &[u8]) -> Option<Vec<i16>> {
        let mut samples = vec![0; 2 * block.len() - 7 * channels];
        for channel in 0..channels {
            let mut state = header(block, channel);
            if state.1 > 88 && self.has(OUT) {
                return None;
            }
            if state.1 > 88 && self.has(ZERO) {
                state.1 = 0;
            }
            samples[channel] = state.0;
            let rest = samples[channel..].iter_mut().step_by(channels).skip(1);
            for (n, sample) in rest.enumerate() {
                state = self.moved(state, nibble_of(block, channels, channel, n));
                *sample = state.0;
            }
        }
        Some(samples)
    }

    fn decode_ima4(self, coded: &Coded) -> Vec<i16> {
        let mut samples = Vec::new();
        let (mut predictor, mut index) = (0, 0);
        for block in coded.bytes.chunks(34) {
            let out = self.has(OUT) && block[1] & 127 > 88;
            if self.has(RELOAD) || out {
                // at an index above 88 our decoder takes the header's state
                index = 200;
            }
            if !out {
                let mut decoded = [0; 64];
                let state = (&mut predictor, &mut index, &mut 0);
                ours::done(ffi::decode_ima4(block, state, &mut decoded));
                samples.extend(decoded);
            }
        }
        samples
    }

    /// MS blocks, each from the index that `theirs` has in its header.
    pub fn encode(self, channels: u8, samples: &[i16], theirs: &Coded) -> Vec<u8> {
        let each = samples.chunks(Codec::Ms(channels).samples(theirs.block));
        let blocks = theirs.bytes.chunks(theirs.block).zip(each);
        let block = |(block, samples)| self.encode_block(channels.into(), samples, block);
        blocks.flat_map(block).collect()
    }

    fn encode_block(self, channels: usize, samples: &[i16], theirs: &[u8]) -> Vec<u8> {
        let mut block = vec![0; theirs.len()];
        for channel in 0..channels {
            let first = samples[if self.has(LEFT) { 0 } else { channel }];
            let mut state = (first, header(theirs, channel).1);
            block[4 * channel..][..2].copy_from_slice(&first.to_le_bytes());
            block[4 * channel + 2] = state.1;
            let rest = samples[channel..].iter().step_by(channels).skip(1);
            for (n, &sample) in rest.enumerate() {
                let nibble = self.nibble(state, sample);
                let (byte, shift) = place(channels, channel, n);
                block[byte] |= nibble << shift;
                state = self.moved(state, nibble);
            }
        }
        block
    }

    fn nibble(self, (mut predictor, mut index): State, sample: i16) -> u8 {
        if !self.has(QUOTIENT) {
            return ffi::encode_adpcm_ima(sample, (&mut predictor, &mut index, &mut 0));
        }
        let by = i32::from(sample) - i32::from(predictor);
        let magnitude = (4 * by.abs() / step(index)).min(7) as u8;
        magnitude | if by < 0 { 8 } else { 0 }
    }

    fn moved(self, (before, index): State, nibble: u8) -> State {
        let (mut predictor, mut next) = (before, index);
        ffi::decode_adpcm_ima(nibble, (&mut predictor, &mut next, &mut 0));
        if self.has(PRODUCT) {
            let by = ((2 * i32::from(nibble & 7) + 1) * step(index)) >> 3;
            let sum = i32::from(before) + if nibble & 8 == 0 { by } else { -by };
            predictor = sum.clamp(-32768, 32767) as i16;
        }
        (predictor, next)
    }
}

/// The step at an index, by what our decoder adds.
fn step(index: u8) -> i32 {
    let from_lowest = |nibble| {
        let (mut predictor, mut index) = (i16::MIN, index);
        let state = (&mut predictor, &mut index, &mut 0);
        i32::from(ffi::decode_adpcm_ima(nibble, state))
    };
    from_lowest(4) - from_lowest(0)
}

/// Whether a block has nibbles that our encoder does not write there: 8 at step 7, and others, of which
/// all clip, by the law of reach.
pub fn unwritten(channels: usize, block: &[u8]) -> [bool; 2] {
    let mut found = [false; 2];
    for channel in 0..channels {
        let mut state = header(block, channel);
        for n in 0..2 * (block.len() / channels - 4) {
            let nibble = nibble_of(block, channels, channel, n);
            let next = Rule(0).moved(state, nibble);
            if Rule(0).nibble(state, next.0) != nibble {
                found[usize::from(nibble != 8 || step(state.1) != 7)] = true;
            }
            state = next;
        }
    }
    found
}

fn header(block: &[u8], channel: usize) -> State {
    let head = &block[4 * channel..];
    (i16::from_le_bytes([head[0], head[1]]), head[2])
}

/// Where an MS block has a channel's nibble: the byte, and how far it is shifted.
fn place(channels: usize, channel: usize, n: usize) -> (usize, usize) {
    (
        4 * (channels * (1 + n / 8) + channel) + n % 8 / 2,
        n % 2 * 4,
    )
}

fn nibble_of(block: &[u8], channels: usize, channel: usize, n: usize) -> u8 {
    let (byte, shift) = place(channels, channel, n);
    (block[byte] >> shift) & 15
}
