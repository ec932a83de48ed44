//! Runs of ima4 blocks. Ours are true calls, of 1 to 1,024 blocks each, so the rows say what a call costs
//! beside its blocks. The oracle's call for one block is inlined into a loop over the blocks of the same
//! slices.

use crate::blocks::{oracle, ours, BYTES, MOST, SAMPLES};
use crate::growth;
use crate::rounds::{round, Row};
use crate::signal::{noise, speech};

/// So many blocks are timed together, no two with the same samples.
pub const BLOCKS: usize = 4 * MOST;
/// The blocks a call of those rows that are shown beside the other calls.
pub const SHOWN: [usize; 3] = [1, 32, MOST];
const UNIT: &str = "blocks a call";

pub struct Content {
    name: &'static str,
    samples: Vec<i16>,
    bytes: Vec<u8>,
}

/// The noise is at full scale: most steps are large, and many samples are clipped.
pub fn contents() -> [Content; 2] {
    let len = BLOCKS * SAMPLES;
    [
        content("speech", speech(1, len)),
        content("noise", noise(1, len)),
    ]
}

fn content(name: &'static str, samples: Vec<i16>) -> Content {
    let mut bytes = vec![0; BLOCKS * BYTES];
    oracle::encode(&samples, &mut (0, 0), &mut bytes);
    Content {
        name,
        samples,
        bytes,
    }
}

/// Speech has a row for each number of blocks, to see how it grows.
pub fn rows([speech, noise]: &[Content; 2]) -> Vec<Row<'_>> {
    let sizes: Vec<usize> = growth::sizes().collect();
    let mut rows = Vec::new();
    for (content, sizes) in [(speech, &sizes[..]), (noise, &SHOWN)] {
        rows.extend(sizes.iter().map(|&blocks| decode(content, blocks)));
        rows.extend(sizes.iter().map(|&blocks| encode(content, blocks)));
    }
    rows
}

fn decode(content: &Content, blocks: usize) -> Row<'_> {
    let (bytes, samples) = (blocks * BYTES, blocks * SAMPLES);
    let input = (&content.bytes[..], bytes);
    let all = content.samples.len();
    let round = round([all; 2], input, samples, ours::decode, oracle::decode);
    Row::new("decode_ima4", content.name, (blocks, UNIT), None, round)
}

fn encode(content: &Content, blocks: usize) -> Row<'_> {
    let (bytes, samples) = (blocks * BYTES, blocks * SAMPLES);
    let input = (&content.samples[..], samples);
    let all = content.samples.len();
    let round = round([all; 2], input, bytes, ours::encode, oracle::encode);
    Row::new("encode_ima4", content.name, (blocks, UNIT), None, round)
}
