//! What the scope names by number, held by both sides. Strict reading is ours alone.

use super::block::oracle::{self, fitting};
use super::block::{eight, ours};
use super::both::{Decode, Encode};

/// A channel number, the length of a block and that of its samples, and the number with which both calls
/// answer them.
const LENGTHS: [(u8, usize, usize, u8); 52] = [
    (1, 3, 0, 2),
    (1, 3, 1, 2),
    (1, 4, 1, 0),
    (1, 4, 0, 2),
    (1, 65_535, 131_063, 0),
    (1, 65_536, 131_065, 2),
    (2, 8, 2, 0),
    (2, 8, 0, 2),
    (2, 12, 10, 2),
    (2, 16, 18, 0),
    (2, 65_528, 131_042, 0),
    (2, 65_536, 131_058, 2),
    // a length of two channels is none of three
    (3, 8, 0, 2),
    (3, 12, 3, 0),
    (3, 12, 2, 2),
    (3, 16, 11, 2),
    (3, 24, 27, 0),
    (3, 24, 26, 2),
    (3, 65_532, 131_043, 0),
    (3, 65_535, 131_049, 2),
    (3, 65_544, 131_067, 2),
    (4, 12, 0, 2),
    (4, 16, 4, 0),
    (4, 24, 20, 2),
    (4, 65_520, 131_012, 0),
    (4, 65_536, 131_044, 2),
    (5, 16, 0, 2),
    (5, 20, 5, 0),
    (5, 32, 29, 2),
    (5, 65_520, 131_005, 0),
    (5, 65_540, 131_045, 2),
    (6, 20, 0, 2),
    (6, 24, 6, 0),
    (6, 36, 30, 2),
    (6, 65_520, 130_998, 0),
    (6, 65_544, 131_046, 2),
    (7, 24, 0, 2),
    (7, 28, 7, 0),
    (7, 32, 15, 2),
    (7, 65_520, 130_991, 0),
    (7, 65_548, 131_047, 2),
    (8, 16, 0, 2),
    (8, 32, 8, 0),
    (8, 48, 40, 2),
    (8, 64, 72, 0),
    (8, 64, 71, 2),
    (8, 65_504, 130_952, 0),
    (8, 65_536, 131_016, 2),
    (0, 4, 1, 1),
    (9, 36, 9, 1),
    // the channel number is looked at first
    (0, 0, 0, 1),
    (255, 65_536, 1, 1),
];

/// A channel number, a block, and the number with which strict reading answers it.
pub const STRICT: [(u8, &[u8], u8); 16] = [
    (1, &[0, 0, 88, 0], 0),
    (1, &[0, 0, 89, 0], 8),
    (1, &[0, 0, 255, 0], 8),
    // of one channel the seventh byte is two nibbles
    (1, &[0, 0, 0, 0, 0, 0, 0xff], 0),
    (2, &[0, 0, 88, 0, 0, 0, 88, 0], 0),
    (2, &[0, 0, 89, 0, 0, 0, 88, 0], 8),
    (2, &[0, 0, 88, 0, 0, 0, 89, 0], 8),
    (3, &zeros_but::<12>(10, 88), 0),
    (3, &zeros_but::<12>(10, 89), 8),
    // of three channels the fifteenth byte is two nibbles
    (3, &zeros_but::<24>(14, 0xff), 0),
    (8, &zeros_but::<32>(30, 88), 0),
    (8, &zeros_but::<32>(30, 89), 8),
    // the indices are looked at last
    (1, &[0, 0, 200], 2),
    (2, &[0, 0, 200, 0, 0, 0, 200, 0, 0, 0, 0, 0], 2),
    (3, &zeros_but::<16>(10, 200), 2),
    (9, &zeros_but::<36>(34, 200), 1),
];

/// A block of zeros, with that byte at that place.
const fn zeros_but<const BYTES: usize>(place: usize, byte: u8) -> [u8; BYTES] {
    let mut block = [0; BYTES];
    block[place] = byte;
    block
}

/// Ends the run at a number that is another.
pub fn hold() {
    let calls: [(Decode, Encode); 3] = [
        (ours::decode, ours::encode),
        (ours::decode_lenient, ours::encode),
        (oracle::decode, oracle::encode),
    ];
    for (decode, encode) in calls {
        for (channels, block, samples, number) in LENGTHS {
            let (mut bytes, mut numbers) = (vec![0; block], vec![0; samples]);
            let pair = (channels, block, samples);
            assert_eq!(decode(channels, &bytes, &mut numbers), number, "{pair:?}");
            let mut states = [(0, 0); 8];
            let answer = encode(channels, &numbers, &mut states, &mut bytes);
            assert_eq!(answer, number, "{pair:?}, encoded");
        }
        three_samples(decode);
        raw_index(encode);
    }
    for (channels, block, number) in STRICT {
        let len = fitting(channels, block.len());
        strict(channels, block, len, number);
    }
    strict(1, &[0, 0, 200, 0], 2, 2);
}

/// A call that is refused leaves the samples as they are.
fn strict(channels: u8, block: &[u8], len: usize, number: u8) {
    let mut samples = vec![0x5a5a; len];
    let answer = ours::decode(channels, block, &mut samples);
    assert_eq!(answer, number, "{:?}", (channels, block, len));
    assert_eq!(samples == vec![0x5a5a; len], number != 0, "{block:?}");
}

fn three_samples(decode: Decode) {
    let mut samples = [1; 3];
    assert_eq!(decode(1, &[0, 0, 0, 0, 0x17], &mut samples), 0);
    assert_eq!(samples, [0, 11, 17]);
}

/// An index above the table is written as it is. Only a nibble lowers it, so that with one sample it comes
/// back. So do the states that are not used.
fn raw_index(encode: Encode) {
    let given = eight([(5, 200), (6, 201)]);
    let (mut states, mut block) = (given, [1; 4]);
    assert_eq!(encode(1, &[-2], &mut states, &mut block), 0);
    assert_eq!(block, [0xfe, 0xff, 200, 0]);
    assert_eq!((states[0], &states[1..]), ((-2, 200), &given[1..]));

    let (mut states, mut block) = (given, [1; 12]);
    assert_eq!(encode(3, &[-2, -3, -4], &mut states, &mut block), 0);
    assert_eq!(block[..6], [0xfe, 0xff, 200, 0, 0xfd, 0xff]);
    assert_eq!(block[6..], [201, 0, 0xfc, 0xff, 251, 0]);
    assert_eq!(states[..3], [(-2, 200), (-3, 201), (-4, 251)]);
    assert_eq!(states[3..], given[3..]);
}
