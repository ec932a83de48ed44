//! The rule by which clipped steps are counted, as a plain loop in 32 bits. It has nothing of the oracle, and
//! nothing of ours. tests/binding uses this file too.

/// The predictor, the step index, and how many steps have clipped.
pub type State = (i16, u8, u32);

const STEPS: [i32; 89] = [
    7, 8, 9, 10, 11, 12, 13, 14, 16, 17, 19, 21, 23, 25, 28, 31, 34, 37, 41, 45, 50, 55, 60, 66,
    73, 80, 88, 97, 107, 118, 130, 143, 157, 173, 190, 209, 230, 253, 279, 307, 337, 371, 408, 449,
    494, 544, 598, 658, 724, 796, 876, 963, 1060, 1166, 1282, 1411, 1552, 1707, 1878, 2066, 2272,
    2499, 2749, 3024, 3327, 3660, 4026, 4428, 4871, 5358, 5894, 6484, 7132, 7845, 8630, 9493,
    10442, 11487, 12635, 13899, 15289, 16818, 18500, 20350, 22385, 24623, 27086, 29794, 32767,
];
const MOVES: [i32; 8] = [-1, -1, -1, -1, 2, 4, 6, 8];

/// One step, by the low four bits of a byte. It clips if the exact sum is outside of -32768 to 32767. The count
/// stops at its last number.
#[inline(always)]
pub fn step(nibble: u8, (predictor, index, clipped): &mut State) {
    let place = (*index).min(88);
    let step = STEPS[usize::from(place)];
    let mut difference = step / 8;
    for (bit, part) in [(4, step), (2, step / 2), (1, step / 4)] {
        if nibble & bit != 0 {
            difference += part;
        }
    }
    let sign = if nibble & 8 == 0 { 1 } else { -1 };
    let sum = i32::from(*predictor) + sign * difference;
    if !(-32768..=32767).contains(&sum) && *clipped < 4_294_967_295 {
        *clipped += 1;
    }
    *predictor = sum.clamp(-32768, 32767) as i16;
    let moved = i32::from(place) + MOVES[usize::from(nibble & 7)];
    *index = moved.clamp(0, 88) as u8;
}

/// The low half of a byte first.
pub fn steps(bytes: &[u8], state: &mut State) {
    for byte in bytes {
        step(byte & 15, state);
        step(byte >> 4, state);
    }
}

/// A decoder of a run of ima4 blocks. What it takes from a header has no count, so its own goes on.
pub fn decoded(bytes: &[u8], state: &mut State) {
    for block in bytes.chunks_exact(34) {
        let predictor = i16::from_be_bytes([block[0], block[1] & 0x80]);
        let index = (block[1] & 0x7f).min(88);
        let apart = i32::from(state.0) - i32::from(predictor);
        if state.1 != index || apart.abs() > 127 {
            (state.0, state.1) = (predictor, index);
        }
        steps(&block[2..], state);
    }
}

/// An encoder of a run of ima4 blocks: its steps are those of the nibbles that it wrote.
pub fn encoded(bytes: &[u8], state: &mut State) {
    for block in bytes.chunks_exact(34) {
        steps(&block[2..], state);
    }
}

/// The channels of an MS block that is decoded, or was encoded: each starts from its header, and goes on with its
/// count.
pub fn block(channels: u8, block: &[u8], counts: &mut [u32; 8]) {
    let channels = usize::from(channels);
    for (channel, count) in counts.iter_mut().take(channels).enumerate() {
        let header = &block[4 * channel..];
        let mut state = (
            i16::from_le_bytes([header[0], header[1]]),
            header[2],
            *count,
        );
        let groups = block.chunks(4).skip(channels + channel);
        for bytes in groups.step_by(channels) {
            steps(bytes, &mut state);
        }
        *count = state.2;
    }
}
