//! A channel of an MS block is its own. Its header and its bytes are changed to others: then the samples of all
//! other channels are what they were, and its own are what the oracle makes of its bytes alone, cut out into a
//! block of one channel.

use super::block::oracle::{self, bytes_of, fitting, samples_of};
use super::block::ours;
use crate::parallel::each;
use crate::report::Report;
use crate::runs::random;

/// Blocks at random, so most indices are above 88, and all is lenient reading. Compared are the samples of a
/// channel.
pub fn report(progress: bool) -> Report {
    let report = Report::start(progress, "ms isolation");
    each(0..128, |seed| {
        for channels in 2..=8 {
            for groups in [0, 1, 2, 7, 40] {
                let len = 4 * channels * (1 + groups);
                let (block, other) = (random(seed, len), random(!seed, len));
                for channel in 0..channels {
                    change(&report, channels, channel, &block, &other);
                }
            }
        }
    });
    report
}

/// One channel of `block` is taken from `other`.
fn change(report: &Report, channels: usize, changed: usize, block: &[u8], other: &[u8]) {
    let mut new = block.to_vec();
    let fours = new.chunks_exact_mut(4).zip(other.chunks_exact(4));
    for (four, other) in fours.skip(changed).step_by(channels) {
        four.copy_from_slice(other);
    }
    let (before, after) = (decoded(channels, block), decoded(channels, &new));
    let inputs = (0..channels).map(|channel| (channel, changed, channels, block.len()));
    report.compare(
        inputs,
        |(channel, ..)| samples_of(channel, channels, &after),
        |(channel, ..)| match channel == changed {
            true => alone(&bytes_of(channel, channels, &new)),
            false => samples_of(channel, channels, &before),
        },
    );
}

fn decoded(channels: usize, block: &[u8]) -> Vec<i16> {
    let mut samples = vec![0; fitting(channels as u8, block.len())];
    let number = ours::decode_lenient(channels as u8, block, &mut samples);
    assert_eq!(number, 0, "{channels} channels, {} bytes", block.len());
    samples
}

/// By the oracle, as a block of one channel.
fn alone(block: &[u8]) -> Vec<i16> {
    let mut samples = vec![0; fitting(1, block.len())];
    assert_eq!(oracle::decode(1, block, &mut samples), 0);
    samples
}
