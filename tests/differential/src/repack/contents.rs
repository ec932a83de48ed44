//! Blocks of every length that is taken, of several contents, with several indices in the header. What the
//! oracle encoded is repacked, and so is what nobody encoded.

use super::both::{compare, oracle, unchanged};
use crate::ms::block::oracle::{encode, fitting};
use crate::ms::block::States;
use crate::ms::contents::{contents, Name};
use crate::ms::lengths::taken;
use crate::parallel::each;
use crate::report::Report;
use crate::runs::{random, spoilt};

/// The indices of eight channels.
const INDICES: [[u8; 8]; 3] = [
    [0; 8],
    [88, 1, 44, 0, 87, 2, 60, 88],
    [200, 44, 88, 255, 0, 89, 128, 150],
];

/// Compared are both numbers and all bytes. What was encoded from indices of the table is not changed, and
/// what was repacked once is not changed by repacking it again.
pub fn reports(progress: bool) -> [Report; 3] {
    let blocks = Report::start(progress, "repack_ms blocks");
    let written = Report::start(progress, "repack_ms written");
    let twice = Report::start(progress, "repack_ms twice");
    let repack = |name: (&str, Name), channels, block: &[u8]| {
        let repacked = compare(&blocks, name, channels, block, block.len(), oracle);
        compare(&twice, name, channels, &repacked, block.len(), unchanged);
    };
    each(taken().into_iter(), |(channels, len)| {
        let seed = len as u64 % 8 + 1;
        for (name, samples) in contents(channels, seed, fitting(channels, len)) {
            for indices in INDICES {
                let block = encoded(channels, &samples, indices.map(|index| (0, index)), len);
                if indices.iter().all(|&index| index <= 88) {
                    compare(&written, name, channels, &block, len, unchanged);
                }
                repack(("encoded", name), channels, &block);
                repack(("spoilt", name), channels, &spoilt(&block, seed));
            }
        }
        for seed in 1..=4 {
            repack(("random", ("", "")), channels, &random(seed, len));
        }
    });
    [blocks, written, twice]
}

fn encoded(channels: u8, samples: &[i16], mut states: States, len: usize) -> Vec<u8> {
    let mut block = vec![0; len];
    let number = encode(channels, samples, &mut states, &mut block);
    assert_eq!(number, 0, "a block of {len} bytes is taken");
    block
}
