//! A block repacked by both sides, and compared: the number that is returned, the one that says whether
//! any byte changed, and the buffer that is written with the room about it. The block stays as it was. Ours
//! is by lenient reading, as the oracle reads.

use crate::headers::one;
use crate::ms::block::{oracle, ours};
use crate::outcome::Outcome;
use crate::report::Report;
use std::fmt::Debug;

pub type Repack = fn(u8, &[u8], &mut u8, &mut [u8]) -> u8;

/// What the number that says whether a byte changed is before the call, for a refused one to leave.
pub const LENT: u8 = 0x5a;
/// That number with a neighbour on either side, so that one which is too wide is seen.
pub const ROOM: [u8; 3] = [LENT; 3];

pub fn oracle(channels: u8, block: &[u8], changed: &mut u8, repacked: &mut [u8]) -> u8 {
    oracle::repack(&mut Vec::new(), channels, block, changed, repacked)
}

/// What repacking is to a block that it does not change.
pub fn unchanged(_: u8, block: &[u8], changed: &mut u8, repacked: &mut [u8]) -> u8 {
    repacked.copy_from_slice(block);
    *changed = 0;
    0
}

/// Ours, with a second buffer of that length, is held to another. What ours wrote there is handed back.
pub fn compare(
    report: &Report,
    name: impl Debug,
    channels: u8,
    block: &[u8],
    len: usize,
    other: Repack,
) -> Vec<u8> {
    let before = block.to_vec();
    let by = |repack: Repack| {
        Outcome::of(len, ROOM, |[_, changed, _], repacked| {
            repack(channels, block, changed, repacked)
        })
    };
    let ours = by(ours::repack_lenient);
    ours.compare(report, (channels, block.len(), len, name), &by(other));
    assert!(block == before, "a call wrote to what it reads");
    ours.buffer().to_vec()
}

/// Many short blocks.
pub fn compare_all<const BYTES: usize>(
    report: &Report,
    channels: u8,
    blocks: impl Iterator<Item = [u8; BYTES]>,
) {
    let by = |repack: Repack| {
        one(move |block, [_, changed, _]: &mut [u8; 3], repacked| {
            repack(channels, block, changed, repacked)
        })
    };
    let inputs = blocks.map(|block| (block, ROOM));
    let ours = by(ours::repack_lenient);
    report.compare::<_, (u8, [u8; 3], [u8; BYTES])>(inputs, ours, by(oracle));
}
