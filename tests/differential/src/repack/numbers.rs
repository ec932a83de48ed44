//! What the scope names by number, held by both sides. Strict reading is ours alone.

use super::both::{oracle, Repack, LENT};
use crate::ms::block::ours;
use crate::ms::numbers::STRICT;

/// A channel number, the lengths of the block and of the second buffer, and the number that answers them.
const LENGTHS: [(u8, usize, usize, u8); 42] = [
    (1, 0, 0, 2),
    (1, 3, 3, 2),
    (1, 4, 4, 0),
    (1, 4, 3, 2),
    (1, 4, 5, 2),
    (1, 65_535, 65_535, 0),
    (1, 65_535, 65_534, 2),
    (1, 65_536, 65_536, 2),
    (2, 0, 0, 2),
    (2, 4, 4, 2),
    (2, 8, 8, 0),
    (2, 8, 16, 2),
    (2, 12, 12, 2),
    (2, 16, 16, 0),
    (2, 65_528, 65_528, 0),
    (2, 65_535, 65_535, 2),
    (2, 65_536, 65_536, 2),
    (3, 12, 12, 0),
    (3, 12, 24, 2),
    // a length of two channels is none of three
    (3, 16, 16, 2),
    (3, 65_532, 65_532, 0),
    (3, 65_535, 65_535, 2),
    (4, 16, 16, 0),
    (4, 24, 24, 2),
    (4, 65_520, 65_520, 0),
    (5, 20, 20, 0),
    (5, 24, 24, 2),
    (5, 65_520, 65_520, 0),
    (6, 24, 24, 0),
    (6, 36, 36, 2),
    (6, 65_520, 65_520, 0),
    (7, 28, 28, 0),
    (7, 32, 32, 2),
    (7, 65_520, 65_520, 0),
    (8, 16, 16, 2),
    (8, 32, 32, 0),
    (8, 64, 32, 2),
    (8, 65_504, 65_504, 0),
    (8, 65_536, 65_536, 2),
    // the channel number is looked at first
    (0, 4, 4, 1),
    (9, 0, 0, 1),
    (255, 65_536, 1, 1),
];

/// A block of one channel, what it is repacked to by lenient reading, and whether a byte changed.
const BLOCKS: [([u8; 5], [u8; 5], u8); 4] = [
    ([0, 0, 0, 0, 0x17], [0, 0, 0, 0, 0x17], 0),
    // the program's example: it is clipped
    ([0xf6, 0x7f, 0, 0, 0x07], [0xf6, 0x7f, 0, 0, 0x05], 1),
    // nibble 8 at step 7 decodes like 0
    ([0, 0, 0, 0, 0x08], [0, 0, 0, 0, 0], 1),
    // an index above 88, and a fourth byte
    ([0, 0, 200, 9, 0], [0, 0, 88, 0, 0], 1),
];

/// Ends the run at a number that is another.
pub fn hold() {
    for repack in [ours::repack as Repack, ours::repack_lenient, oracle] {
        for (channels, len, repacked_len, number) in LENGTHS {
            let (block, mut repacked) = (vec![0; len], vec![LENT; repacked_len]);
            let mut changed = LENT;
            let answer = repack(channels, &block, &mut changed, &mut repacked);
            let left = if number == 0 { 0 } else { LENT };
            let lengths = (channels, len, repacked_len);
            assert_eq!((answer, changed), (number, left), "{lengths:?}");
            assert_eq!(repacked, vec![left; repacked_len], "{lengths:?}");
        }
    }
    for repack in [ours::repack_lenient as Repack, oracle] {
        for (block, new, says) in BLOCKS {
            let (mut changed, mut repacked) = (LENT, [LENT; 5]);
            assert_eq!(repack(1, &block, &mut changed, &mut repacked), 0);
            assert_eq!((repacked, changed), (new, says), "{block:x?}");
        }
    }
    for (channels, block, number) in STRICT {
        strict(channels, block, block.len(), number);
    }
    strict(1, &[0, 0, 200, 0], 5, 2);
}

/// A block that is taken stays as it is, and a call that is refused leaves all as it was.
fn strict(channels: u8, block: &[u8], len: usize, number: u8) {
    let (mut changed, mut repacked) = (LENT, vec![LENT; len]);
    let answer = ours::repack(channels, block, &mut changed, &mut repacked);
    let lengths = (channels, block, len);
    let expected = match number {
        0 => (0, 0, block.to_vec()),
        _ => (number, LENT, vec![LENT; len]),
    };
    assert_eq!((answer, changed, repacked), expected, "{lengths:?}");
}
