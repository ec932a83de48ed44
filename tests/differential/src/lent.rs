//! The two calls that are lent a state, in place, as the Rust's own are.

use crate::clips::plain::State as Metered;
use crate::nibble::{After, Before};

/// Laid out as the proved struct is, which says `repr(C)` too.
#[repr(C)]
struct State {
    predictor: i16,
    step_index: u8,
    clipped: u32,
}

mod c {
    use super::State;

    extern "C" {
        pub fn decode_adpcm_ima(encoded_nibble: u8, state: *mut State) -> i16;
        pub fn encode_adpcm_ima(sample_value: i16, state: *mut State) -> u8;
    }
}

#[inline(always)]
pub fn decode((nibble, predictor, index): Before<u8>) -> After<i16> {
    let (sample, (predictor, index, _)) = decode_metered(nibble, (predictor, index, 0));
    (sample, predictor, index)
}

#[inline(always)]
pub fn encode((sample, predictor, index): Before<i16>) -> After<u8> {
    let (nibble, (predictor, index, _)) = encode_metered(sample, (predictor, index, 0));
    (nibble, predictor, index)
}

/// The same with a count.
#[inline(always)]
pub fn decode_metered(nibble: u8, state: Metered) -> (i16, Metered) {
    // SAFETY: the proved function reads and writes the state that it is lent.
    lending(state, |state| unsafe { c::decode_adpcm_ima(nibble, state) })
}

#[inline(always)]
pub fn encode_metered(sample: i16, state: Metered) -> (u8, Metered) {
    // SAFETY: as above.
    lending(state, |state| unsafe { c::encode_adpcm_ima(sample, state) })
}

/// Stands on either side of the state that is lent, and has to stay as it is.
const NEIGHBOUR: u32 = 0x5aa5_a55a;

/// Lends the middle two of four words as a state. That Rust lays the struct out as the proved one is laid out
/// is not proved, so what stands beside it is looked at too.
#[inline(always)]
fn lending<T>(
    (predictor, step_index, clipped): Metered,
    call: impl Fn(*mut State) -> T,
) -> (T, Metered) {
    const { assert!(size_of::<State>() == 8 && align_of::<State>() <= 4) };
    // The state is stored as two words and loaded one number at a time: a load of what several stores wrote would wait.
    let [first, second] = predictor.to_ne_bytes();
    let word = u32::from_ne_bytes([first, second, step_index, 0]);
    let mut words = [NEIGHBOUR, word, clipped, NEIGHBOUR];
    let state: *mut State = words.as_mut_ptr().wrapping_add(1).cast();
    let answer = call(state);
    // SAFETY: two words have room for a state, and all of its numbers are set.
    let (predictor, step_index) = unsafe { ((*state).predictor, (*state).step_index) };
    // SAFETY: as above.
    let clipped = unsafe { (*state).clipped };
    assert!(
        words[0] == NEIGHBOUR && words[3] == NEIGHBOUR,
        "a neighbour was written"
    );
    (answer, (predictor, step_index, clipped))
}
