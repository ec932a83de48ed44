//! Short blocks, with all that a header can say: for one channel every predictor with every index, for
//! two every index on the left with every index on the right, and for more every index in each channel. The
//! fourth byte is 0 in some, and takes all values in others.

use super::both::{compare, compare_all, oracle};
use crate::headers::bodies;
use crate::ms::headers::{block, many, mono, stereo, write_block};
use crate::parallel::each;
use crate::report::Report;

/// Compared are both numbers and all bytes.
pub fn report(progress: bool) -> Report {
    let report = Report::start(progress, "repack_ms headers");
    let pool = bodies();
    each(0..=u8::MAX, |index| {
        compare_all::<4>(&report, 1, mono(index).map(|head| block(&head, &pool)));
        compare_all::<4>(&report, 1, fourths(index));
        let blocks = mono(index).map(|head| plain(1, block(&head, &pool)));
        compare_all::<8>(&report, 1, blocks);
        compare_all::<8>(&report, 2, stereo(index).map(|head| block(&head, &pool)));
        let blocks = stereo(index).map(|head| block(&head, &pool));
        compare_all::<24>(&report, 2, blocks);
        let blocks = stereo(index).map(|head| plain(2, block(&head, &pool)));
        compare_all::<24>(&report, 2, blocks);
        for (heads, len) in many(index) {
            let (channels, mut block) = (heads.len(), vec![0; len]);
            write_block(&mut block, &heads, &pool);
            compare(&report, &heads, channels as u8, &block, len, oracle);
            clear_fourths(channels, &mut block);
            compare(&report, &heads, channels as u8, &block, len, oracle);
        }
    });
    report
}

/// Some predictors, each with all values of the fourth byte.
fn fourths(index: u8) -> impl Iterator<Item = [u8; 4]> {
    let predictors = [i16::MIN, -12345, -1, 0, 1, 12345, i16::MAX].into_iter();
    predictors.flat_map(move |predictor| {
        let [low, high] = predictor.to_le_bytes();
        (0..=u8::MAX).map(move |fourth| [low, high, index, fourth])
    })
}

/// With a fourth byte of 0, so that no byte of a header need change.
fn plain<const BYTES: usize>(channels: usize, mut block: [u8; BYTES]) -> [u8; BYTES] {
    clear_fourths(channels, &mut block);
    block
}

fn clear_fourths(channels: usize, block: &mut [u8]) {
    for header in block.chunks_exact_mut(4).take(channels) {
        header[3] = 0;
    }
}
