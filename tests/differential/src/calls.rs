//! The two calls on runs of ima4 blocks, each by both sides. A state is one of two numbers, or of three if it
//! counts clipped steps.

use crate::blocks::{oracle, ours, State, BYTES, SAMPLES};

/// A run by one side: what goes in, the state, what comes out, and the number that is returned.
pub type Run<A, B, S> = fn(&[A], &mut S, &mut [B]) -> u8;

/// One of the two calls, by both sides. A block goes in as `from` numbers, and comes out as `to`.
pub struct Call<A, B, S = State> {
    pub name: &'static str,
    pub ours: Run<A, B, S>,
    pub oracle: Run<A, B, S>,
    pub from: usize,
    pub to: usize,
}

pub const DECODE: Call<u8, i16> = Call {
    name: "decode",
    ours: ours::decode,
    oracle: oracle::decode,
    from: BYTES,
    to: SAMPLES,
};

pub const ENCODE: Call<i16, u8> = Call {
    name: "encode",
    ours: ours::encode,
    oracle: oracle::encode,
    from: SAMPLES,
    to: BYTES,
};
