//! MS blocks of many lengths, with as many samples as fit and with others, for channel numbers that are
//! taken and for some that are not. What a refused call was lent is left as it was.

use super::block::eight;
use super::block::oracle::{self, fitting};
use super::both;
use crate::blocks::State;
use crate::parallel::each;
use crate::report::Report;
use crate::runs::random;
use crate::signal::noise;
use std::collections::BTreeSet;

/// No block is longer.
pub const LONGEST: usize = 65_536 + 32;
/// Those that are taken, and some that are not. 9 and 10 are 1 and 2 to whoever looks at the low three bits.
pub const CHANNELS: [u8; 13] = [0, 1, 2, 3, 4, 5, 6, 7, 8, 9, 10, 16, 255];
/// Those of the first two channels, from which come the others. An index above the table stays as it was, too.
const STATES: [[State; 2]; 2] = [
    [(-12345, 200), (i16::MAX, 255)],
    [(i16::MIN, 88), (12345, 0)],
];

/// Each length of a block with several lengths of samples. Compared are the number, the buffer with the
/// room about it, and the states of all eight channels.
pub fn report(progress: bool) -> Report {
    let report = Report::start(progress, "ms lengths");
    let (bytes, noise) = (random(1, LONGEST), noise(1, 4 * LONGEST));
    each(blocks().into_iter(), |block| {
        for channels in CHANNELS {
            for samples in samples(channels, block) {
                let (bytes, noise) = (&bytes[..block], &noise[..samples]);
                both::decode(&report, "random", channels, bytes, samples);
                for states in STATES.map(eight) {
                    both::encode(&report, "noise", channels, noise, states, block);
                }
            }
        }
    });
    report
}

/// The channel number and the length of each block that the oracle takes.
pub fn taken() -> Vec<(u8, usize)> {
    let takes = |channels, block| {
        let mut samples = vec![0; fitting(channels, block)];
        oracle::decode(channels, &vec![0; block], &mut samples) == 0
    };
    let all = blocks().into_iter();
    let all = all.flat_map(|block| (1..=8).map(move |channels| (channels, block)));
    all.filter(|&(channels, block)| takes(channels, block))
        .collect()
}

/// All short lengths, those about some that are in use, and those about the longest of one channel and of two.
/// Of more channels the longest, what is one off, and what is a group off.
pub fn blocks() -> BTreeSet<usize> {
    let some = [1_024, 2_048, 65_528, 65_535, 65_536].into_iter();
    let about = some.flat_map(|block| block - 9..=block + 9);
    let longest = (3..=8).flat_map(|channels| {
        let group = 4 * channels;
        let longest = 65_535 / group * group;
        let off = [1, group].into_iter();
        off.flat_map(move |off| [longest - off, longest, longest + off])
    });
    (0..=300).chain(about).chain(longest).collect()
}

/// What fits a block of so many channels, of one more or of one less, and what is one or two off; none, twice as
/// many, and what looks the same to whoever counts with 16 bits. A very short block goes with all short lengths.
pub fn samples(channels: u8, block: usize) -> BTreeSet<usize> {
    let short = if block <= 40 { 0..=80 } else { 0..=0 };
    // a number that is refused goes with the lengths of one that is taken
    let channels = channels.wrapping_sub(1) % 8 + 1;
    let blocks = [block, block % 65_536].into_iter();
    let fitting = blocks.flat_map(|block| {
        let near = channels - 1..=channels + 1;
        near.map(move |channels| fitting(channels, block))
    });
    let about = |len: usize| (len.saturating_sub(2)..=len + 2).chain([2 * len, len + 65_536]);
    short.chain(fitting.flat_map(about)).collect()
}
