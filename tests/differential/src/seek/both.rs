//! A call by both sides, compared: the number, the state, and the buffer that is written with the room about
//! it.

use super::calls::{ours, plain};
use crate::blocks::State;
use crate::outcome::Outcome;
use crate::report::Report;
use std::fmt::Debug;

pub type Index = fn(&[u8], u8, &mut State, &mut [u8]) -> u8;
pub type Decode = fn(&[u8], &[u8], usize, &mut State, &mut [i16]) -> u8;
pub type Reindex = fn(&[u8], usize, &mut [u8]) -> u8;

/// What the state is before a call that only writes it, for a refused one to leave.
pub const LENT: State = (0x5a5a, 0x5a);

/// The call is lent a record of that length. What the plain loop wrote there is handed back.
pub fn index(
    report: &Report,
    name: impl Debug,
    bytes: &[u8],
    every: u8,
    state: State,
    len: usize,
) -> Vec<u8> {
    let by = |index: Index| {
        Outcome::of(len, state, |state, record| {
            index(bytes, every, state, record)
        })
    };
    let plain = by(plain::index);
    let input = ("index", bytes.len(), every, state, len, name);
    by(ours::index).compare(report, input, &plain);
    plain.buffer().to_vec()
}

/// The call is lent a buffer for so many samples.
pub fn decode(
    report: &Report,
    name: impl Debug,
    bytes: &[u8],
    record: &[u8],
    from: usize,
    len: usize,
) {
    let by = |decode: Decode| {
        Outcome::of(len, LENT, |state, samples| {
            decode(bytes, record, from, state, samples)
        })
    };
    let input = ("decode", bytes.len(), record.len(), from, len, name);
    by(ours::decode).compare(report, input, &by(plain::decode));
}

pub fn reindex(report: &Report, name: impl Debug, bytes: &[u8], record: &[u8], from: usize) {
    let by = |reindex: Reindex| lending(record, |record| reindex(bytes, from, record));
    let input = ("reindex", bytes.len(), record.len(), from, name);
    by(ours::reindex).compare(report, input, &by(plain::reindex));
}

/// Lends the call a copy of the record.
pub fn lending(record: &[u8], call: impl FnOnce(&mut [u8]) -> u8) -> Outcome<(), u8> {
    Outcome::of(record.len(), (), |_, copy| {
        copy.copy_from_slice(record);
        call(copy)
    })
}
