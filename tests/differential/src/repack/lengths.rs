//! Blocks of many lengths, with second buffers of the same length and of others, for channel numbers that
//! are taken and for some that are not. What a refused call was lent is left as it was.

use super::both::{compare, oracle};
use crate::ms::lengths::{blocks, CHANNELS, LONGEST};
use crate::parallel::each;
use crate::report::Report;
use crate::runs::random;
use std::collections::BTreeSet;

/// Compared are both numbers, and the buffer with the room about it.
pub fn report(progress: bool) -> Report {
    let report = Report::start(progress, "repack_ms lengths");
    let bytes = random(1, LONGEST);
    each(blocks().into_iter(), |block| {
        for repacked in lengths(block) {
            for channels in CHANNELS {
                let block = &bytes[..block];
                compare(&report, "random", channels, block, repacked, oracle);
            }
        }
    });
    report
}

/// The block's own length and what is one or two off, none, what its samples would need, and what looks
/// the same to whoever counts with 16 bits. A very short block goes with all short lengths.
pub fn lengths(block: usize) -> BTreeSet<usize> {
    let short = if block <= 40 { 0..=80 } else { 0..=0 };
    let about = block.saturating_sub(2)..=block + 2;
    let others = [block % 65_536, block + 65_536, 2 * block, block & !7];
    short.chain(about).chain(others).collect()
}
