//! The same blocks by strict and by lenient reading: with every index in each channel, and with lengths and
//! channel numbers that are not taken, which are refused before an index is.

use super::block::oracle::{self, fitting};
use super::block::ours;
use super::both::Decode;
use super::lengths::{self, CHANNELS, LONGEST};
use super::strict::refuses;
use crate::headers::{bodies, window};
use crate::outcome::Outcome;
use crate::parallel::each;
use crate::report::Report;
use crate::runs::random;

/// What a call returns that refuses an index.
pub const REFUSED: u8 = 8;
/// One channel or two, and the length of a block.
const SIZES: [(u8, usize); 8] = [
    (1, 4),
    (1, 7),
    (1, 8),
    (1, 9),
    (1, 40),
    (2, 8),
    (2, 16),
    (2, 40),
];
const PREDICTORS: [i16; 3] = [i16::MIN, -12345, i16::MAX];

/// Compared are the number, and the buffer with the room about it.
pub fn reports(progress: bool) -> [Report; 2] {
    let readings = Report::start(progress, "ms readings");
    each_block(|channels, block| {
        decode(&readings, channels, block, fitting(channels, block.len()));
    });
    let refusals = Report::start(progress, "ms refusals");
    each_length(|block| {
        for channels in CHANNELS {
            for len in lengths::samples(channels, block.len()) {
                decode(&refusals, channels, block, len);
            }
        }
    });
    [readings, refusals]
}

/// Lenient reading is held to the oracle. So is strict reading, unless the rule refuses what the oracle
/// takes: then it has to refuse it, and to write nothing.
fn decode(report: &Report, channels: u8, block: &[u8], len: usize) {
    let before = block.to_vec();
    let by = |decode: Decode| Outcome::of(len, (), |_, samples| decode(channels, block, samples));
    let oracle = by(oracle::decode);
    let input = (channels, block.len(), head(block), len);
    by(ours::decode_lenient).compare(report, ("lenient", input), &oracle);
    let refused = oracle.is_done() && refuses(channels, block);
    let strict = if refused {
        by(|_, _, _| REFUSED)
    } else {
        oracle
    };
    by(ours::decode).compare(report, ("strict", input), &strict);
    assert!(block == before, "a call wrote to what it reads");
}

/// What is printed of a block.
pub fn head(block: &[u8]) -> &[u8] {
    &block[..block.len().min(32)]
}

/// Calls `work` on short blocks of one to eight channels, with every index in each channel.
pub fn each_block(work: impl Fn(u8, &[u8]) + Sync) {
    let pool = bodies();
    each_pair(&pool, &work);
    each_place(&pool, &work);
}

/// Calls `work` on blocks with every left index, in the third byte, and with every seventh byte. Of two
/// channels that is the right index. Of one channel it is data, and a block of four bytes has none.
fn each_pair(pool: &[u8], work: impl Fn(u8, &[u8]) + Sync) {
    each(0..=u16::MAX, |pair| {
        let [third, seventh] = pair.to_be_bytes();
        for (channels, len) in SIZES {
            for (turn, predictor) in PREDICTORS.iter().enumerate() {
                let mut block = window(pool, usize::from(pair) * 3 + turn, len).to_vec();
                block[..2].copy_from_slice(&predictor.to_le_bytes());
                block[2] = third;
                if let Some(byte) = block.get_mut(6) {
                    *byte = seventh;
                }
                work(channels, &block);
            }
        }
    });
}

/// The same of three to eight channels: every index in each header, beside others of 0 to 88. Behind the headers
/// every byte stands in the next such place, where it is data.
fn each_place(pool: &[u8], work: impl Fn(u8, &[u8]) + Sync) {
    let all = (3..=8).flat_map(|channels| (0..=channels).map(move |place| (channels, place)));
    each(all, |(channels, place)| {
        for byte in 0..=u8::MAX {
            for turn in 0..6 {
                let len = 4 * channels * [1, 2, 5][turn % 3];
                let mut block = window(pool, usize::from(byte) * 6 + turn, len).to_vec();
                for header in block.chunks_exact_mut(4).take(channels) {
                    header[2] %= 89;
                }
                if let Some(third) = block.get_mut(4 * place + 2) {
                    *third = byte;
                }
                work(channels as u8, &block);
            }
        }
    });
}

/// Calls `work` on blocks of many lengths. All their headers have the index 88, or all have 200.
pub fn each_length(work: impl Fn(&[u8]) + Sync) {
    for index in [88, 200] {
        let mut bytes = random(1, LONGEST);
        for header in bytes.chunks_exact_mut(4) {
            header[2] = index;
        }
        each(lengths::blocks().into_iter(), |len| work(&bytes[..len]));
    }
}
