//! What the scope names by number, held by both sides.

use super::both::{Decode, Index};
use super::calls::{ours, plain};
use crate::blocks::{oracle, State, BYTES, SAMPLES};

/// How many blocks there are, how far apart their states are kept, the length of the record, and the number
/// that answers them.
const LENGTHS: [(usize, u8, usize, u8); 19] = [
    (0, 1, 4, 0),
    (0, 64, 4, 0),
    (0, 1, 7, 5),
    (1, 1, 7, 0),
    (1, 64, 7, 0),
    (1, 64, 4, 5),
    (64, 64, 7, 0),
    (65, 64, 10, 0),
    (65, 64, 7, 5),
    (1024, 1, 3076, 0),
    (1024, 1, 3075, 5),
    (1024, 1, 3077, 5),
    (1024, 3, 1030, 0),
    (1024, 64, 52, 0),
    (1024, 65, 52, 5),
    (1024, 0, 3076, 5),
    (1024, 255, 19, 5),
    (1025, 1, 3079, 3),
    // the bytes are looked at first
    (1025, 0, 0, 3),
];

/// Ends the run at a number that is another.
pub fn hold() {
    let ours: (Index, Decode) = (ours::index, ours::decode);
    for (index, decode) in [ours, (plain::index, plain::decode)] {
        for (blocks, every, len, number) in LENGTHS {
            let mut record = vec![0; len];
            let answer = index(&vec![0; blocks * BYTES], every, &mut (0, 0), &mut record);
            assert_eq!(answer, number, "{:?}", (blocks, every, len));
        }
        heads(index);
        raw_index(index, decode);
    }
}

/// Of no block, and of the most.
fn heads(index: Index) {
    for every in 1..=64 {
        let (mut state, mut record) = ((5, 200), [9; 4]);
        assert_eq!(index(&[], every, &mut state, &mut record), 0);
        assert_eq!((record, state), ([0, 2, 1, every], (5, 200)));
    }
    let mut record = [9; 3076];
    assert_eq!(index(&[0; 1024 * BYTES], 1, &mut (0, 0), &mut record), 0);
    assert_eq!(record[..4], [0x0c, 0x02, 1, 1]);
}

/// An index above the table is kept as it is. The header's index is 88 and its predictor is within 127 of the
/// state's, so from index 200 the state is taken from the header, and from index 88 it would be kept: with a
/// lowered index in the record, other samples come out.
fn raw_index(index: Index, decode: Decode) {
    const START: State = (0x0507, 200);
    let mut bytes = [0; BYTES];
    bytes[..2].copy_from_slice(&[0x05, 88]);
    let (mut end, mut whole) = (START, [0; SAMPLES]);
    oracle::decode(&bytes, &mut end, &mut whole);

    let (mut state, mut record) = (START, [9; 7]);
    assert_eq!(index(&bytes, 1, &mut state, &mut record), 0);
    assert_eq!((record, state), ([0, 5, 1, 1, 0x05, 0x07, 200], end));
    let mut samples = [0; SAMPLES];
    assert_eq!(decode(&bytes, &record, 0, &mut state, &mut samples), 0);
    assert_eq!((samples, state), (whole, end), "as it is");
    record[6] = 88;
    assert_eq!(decode(&bytes, &record, 0, &mut state, &mut samples), 0);
    assert_ne!(samples, whole, "lowered");
}
