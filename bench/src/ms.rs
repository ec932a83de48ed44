//! MS blocks of the usual lengths, 1,024 bytes for each channel, and of one group, 8 bytes for each. There is
//! one a call, and both sides are true calls. For more than two channels the Rust has no call: there it is asked
//! for one channel at a time, and its time is that with cutting them out and weaving what comes back.

use crate::ffi;
use crate::growth;
use crate::ms_block::{interleaved, oracle, ours, States};
use crate::rounds::{round, Row};
use crate::signal::{noise, speech};

/// How large blocks are.
#[derive(Clone, Copy)]
pub struct Size {
    /// Of a block, for each channel.
    bytes: usize,
    samples: usize,
    /// So many blocks of one channel are timed together. No two have the same samples.
    blocks: usize,
}

impl Size {
    /// So many of more channels, which have about as many samples.
    pub fn blocks(&self, channels: u8) -> usize {
        self.blocks / usize::from(channels)
    }
}

pub const USUAL: Size = Size {
    bytes: 1024,
    samples: 2041,
    blocks: 128,
};
/// In so short a block, what a call costs beside its nibbles is seen best.
pub const ONE_GROUP: Size = Size {
    bytes: 8,
    samples: 9,
    blocks: 1 << 14,
};

pub struct Content {
    name: &'static str,
    size: Size,
    channels: u8,
    samples: Vec<i16>,
    bytes: Vec<u8>,
}

/// The noise is at full scale: most steps are large, and many samples are clipped.
pub fn contents() -> Vec<Content> {
    let usual = [1, 2, 6, 8].map(|channels| content("speech", USUAL, channels, speech));
    let loud = [1, 2].map(|channels| content("noise", USUAL, channels, noise));
    let short = [1, 2].map(|channels| content("speech, one group", ONE_GROUP, channels, speech));
    usual.into_iter().chain(loud).chain(short).collect()
}

/// What grows has one channel, and a thousand blocks.
pub fn growing() -> Content {
    let blocks = growth::MOST;
    content("speech", Size { blocks, ..USUAL }, 1, speech)
}

fn content(
    name: &'static str,
    size: Size,
    channels: u8,
    of: fn(u64, usize) -> Vec<i16>,
) -> Content {
    let frames = size.blocks(channels) * size.samples;
    let samples: Vec<_> = (1..=channels.into()).map(|seed| of(seed, frames)).collect();
    let samples = interleaved(&samples);
    let (to, from) = lengths(size, channels);
    let mut bytes = vec![0; samples.len() / from * to];
    let mut states = [(0, 0); 8];
    for (samples, block) in samples.chunks_exact(from).zip(bytes.chunks_exact_mut(to)) {
        oracle::encode(channels, samples, &mut states, block);
    }
    Content {
        name,
        size,
        channels,
        samples,
        bytes,
    }
}

/// The bytes and the samples of a block.
fn lengths(size: Size, channels: u8) -> (usize, usize) {
    let channels = usize::from(channels);
    (channels * size.bytes, channels * size.samples)
}

/// Blocks that are timed together, and the number that their row shows.
struct Blocks<'a> {
    name: &'static str,
    size: Size,
    channels: u8,
    number: (usize, &'static str),
    samples: &'a [i16],
    bytes: &'a [u8],
}

impl Content {
    fn all(&self) -> Blocks<'_> {
        Blocks {
            name: self.name,
            size: self.size,
            channels: self.channels,
            number: (self.channels.into(), "channels"),
            samples: &self.samples,
            bytes: &self.bytes,
        }
    }

    fn first(&self, blocks: usize) -> Blocks<'_> {
        let (bytes, samples) = lengths(self.size, self.channels);
        Blocks {
            number: (blocks, "blocks"),
            samples: &self.samples[..blocks * samples],
            bytes: &self.bytes[..blocks * bytes],
            ..self.all()
        }
    }
}

pub fn rows(contents: &[Content]) -> Vec<Row<'_>> {
    let all = || contents.iter().map(Content::all);
    let mut rows: Vec<Row> = all().map(decode).collect();
    rows.extend(all().map(encode));
    rows.extend(all().map(repack));
    rows
}

/// A row for each number of blocks.
pub fn growth(content: &Content) -> Vec<Row<'_>> {
    let first = || growth::sizes().map(|blocks| content.first(blocks));
    let mut rows: Vec<Row> = first().map(decode).collect();
    rows.extend(first().map(encode));
    rows
}

fn decode(blocks: Blocks) -> Row {
    let channels = blocks.channels;
    let (from, to) = lengths(blocks.size, channels);
    // a decoder has no state
    let round = round(
        [blocks.samples.len(); 2],
        (blocks.bytes, from),
        to,
        move |block, (): &mut (), samples| ours::decode(channels, block, samples),
        move |block, (): &mut (), samples| oracle::decode(channels, block, samples),
    );
    Row::new("decode_ms", blocks.name, blocks.number, None, round)
}

/// Ours is lent three arrays, as over C, and the Rust its states.
fn encode(blocks: Blocks) -> Row {
    type State = ([i16; 8], [u8; 8], [u32; 8], States);
    let channels = blocks.channels;
    let (to, from) = lengths(blocks.size, channels);
    let round = round(
        [blocks.samples.len(); 2],
        (blocks.samples, from),
        to,
        move |samples, (predictors, indices, clipped, _): &mut State, block| {
            ffi::encode_ms(channels, samples, (predictors, indices, clipped), block)
        },
        move |samples, (.., states): &mut State, block| {
            oracle::encode(channels, samples, states, block)
        },
    );
    Row::new("encode_ms", blocks.name, blocks.number, None, round)
}

/// Of blocks that the encoder wrote, which do not change. The Rust has no such call: it decodes the block
/// and encodes the samples, with room for these at hand.
fn repack(blocks: Blocks) -> Row {
    type State = (u8, Vec<i16>);
    let channels = blocks.channels;
    let (bytes, _) = lengths(blocks.size, channels);
    let round = round(
        [blocks.samples.len(); 2],
        (blocks.bytes, bytes),
        bytes,
        move |block, (changed, _): &mut State, new| ours::repack(channels, block, changed, new),
        move |block, (changed, samples): &mut State, new| {
            oracle::repack(samples, channels, block, changed, new)
        },
    );
    Row::new("repack_ms", blocks.name, blocks.number, None, round)
}
