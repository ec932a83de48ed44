//! The calls of an index, held to the Rust's call for one block, with the state handed on: the states
//! before the blocks, and the samples from a block on. The states of an index are believed.

use crate::beyond::{encode_blocks, told, Both, REFUSALS};
use audio_codec_algorithms::{decode_adpcm_ima_ima4, AdpcmImaState};
use calls_rust::{below, bytes, index as step_index, lent, pick, random, sample, samples};
use calls_rust::{plain as numbers, signal::Random};
use sprettuhol::{decode_adpcm_ima_ima4_from, index_bytes};
use sprettuhol::{index_adpcm_ima_ima4, reindex_adpcm_ima_ima4};

pub const CALLS: [fn(u64) -> Both; 3] = [index, reindex, decode_from];

/// All answers, after how many blocks there are, or what does not fit first.
pub const INDEXED: [(&str, &str); 3] = [
    ("none | few | many", "done"),
    ("bytes", REFUSALS[2]),
    ("every | length", REFUSALS[3]),
];
pub const REINDEXED: [(&str, &str); 3] = [
    ("few | many", "done"),
    ("bytes", REFUSALS[2]),
    ("every | length | version | count | from", REFUSALS[3]),
];
pub const DECODED: [(&str, &str); 3] = [
    ("few | many", "done"),
    ("bytes | samples", REFUSALS[2]),
    ("every | length | version | count | from", REFUSALS[3]),
];

pub fn refusal(of: &str) -> Option<&'static str> {
    match of {
        "none" | "few" | "many" => None,
        "bytes" | "samples" => Some(REFUSALS[2]),
        _ => Some(REFUSALS[3]),
    }
}

/// What does not fit first.
fn first(of: &'static str, then: Option<&'static str>) -> &'static str {
    then.filter(|_| refusal(of).is_none()).unwrap_or(of)
}

/// Of each block the state before it, as an index has it, and the samples.
pub fn decoded(buf: &[u8], state: &mut AdpcmImaState) -> Vec<([u8; 3], [i16; 64])> {
    let decode = |block: &[u8]| {
        let ([high, low], index) = (state.predictor.to_be_bytes(), state.step_index);
        let mut samples = [0; 64];
        decode_adpcm_ima_ima4(block.try_into().unwrap(), state, &mut samples);
        ([high, low, index], samples)
    };
    buf.chunks_exact(34).map(decode).collect()
}

/// The states that are kept, of blocks from the first of these on.
fn states(buf: &[u8], every: u8, state: &mut AdpcmImaState) -> Vec<u8> {
    let blocks = decoded(buf, state);
    let kept = blocks.iter().step_by(every.into());
    kept.flat_map(|(before, _)| *before).collect()
}

pub fn indexed(buf: &[u8], every: u8, state: &mut AdpcmImaState) -> Vec<u8> {
    let states = states(buf, every, state);
    let [high, low] = (2 + states.len() as u16).to_be_bytes();
    [vec![high, low, 1, every], states].concat()
}

/// The last block at or before this one that has a state, and the state.
pub fn start(index: &[u8], from: usize) -> (usize, AdpcmImaState) {
    let number = from / usize::from(index[3]);
    let state = &index[4 + 3 * number..];
    let state = AdpcmImaState {
        predictor: i16::from_be_bytes([state[0], state[1]]),
        step_index: state[2],
    };
    (number * usize::from(index[3]), state)
}

/// What does not fit of a run, or how many blocks it has; the run, every second time made by the Rust; and
/// the state to start from.
fn run(random: &mut Random) -> (&'static str, Vec<u8>, AdpcmImaState) {
    let many = pick(random, &[1024, 1025]);
    let few = pick(random, &[0, 1, 2, 7, 7, 7, 20]);
    let blocks = if below(random, 32) == 0 { many } else { few };
    let more = pick(random, &[0, 0, 0, 0, 0, 0, 1, 33]);
    let mut buf = bytes(random, 34 * blocks + more);
    let state = AdpcmImaState {
        predictor: sample(random),
        step_index: step_index(random),
    };
    if pick(random, &[true, false]) {
        let samples = samples(random, 64 * blocks);
        encode_blocks(&samples, &mut state.clone(), &mut buf);
    }
    let of = match blocks {
        _ if more > 0 || blocks > 1024 => "bytes",
        0 => "none",
        1..=20 => "few",
        _ => "many",
    };
    (of, buf, state)
}

fn any_every(random: &mut Random) -> u8 {
    let any = 1 + below(random, 64) as u8;
    pick(random, &[1, 2, 3, 64, any, any])
}

fn no_every(random: &mut Random) -> u8 {
    pick(random, &[0, 65, 255])
}

/// A length of 4 or more, made another.
fn another(random: &mut Random, len: usize) -> usize {
    pick(random, &[len - 1, len + 1, len + 3, 3, 0])
}

/// What does not fit first; the run and the state; how far apart states are kept, and how long the index is.
pub fn to_index(random: &mut Random) -> (&'static str, Vec<u8>, AdpcmImaState, u8, usize) {
    let (of, buf, state) = run(random);
    let every = any_every(random);
    let fitting = 4 + 3 * (buf.len() / 34).div_ceil(every.into());
    let (then, every, len) = match below(random, 6) {
        0 => (Some("every"), no_every(random), fitting),
        1 => (Some("length"), every, another(random, fitting)),
        _ => (None, every, fitting),
    };
    (first(of, then), buf, state, every, len)
}

fn index(seed: u64) -> Both {
    let (of, buf, mut state, every, len) = to_index(&mut random(seed));
    let outcome = |answer: &str, all: &[u8], state: (i16, u8), size: usize| {
        let answer = format!("{of}: {answer}");
        let given = format!("{} bytes by {every} to {len}, {state:?}, {size}", buf.len());
        ("index_adpcm_ima_ima4", answer, given, numbers(all))
    };

    let (predictor, step_index) = (state.predictor, state.step_index);
    let (answer, all) = lent(len, |out: &mut [u8]| {
        refusal(of).unwrap_or_else(|| {
            out.copy_from_slice(&indexed(&buf, every, &mut state));
            "done"
        })
    });
    let blocks = buf.len() / 34;
    let size = match every {
        1..=64 if blocks <= 1024 => 4 + 3 * blocks.div_ceil(every.into()),
        _ => 0,
    };
    let expected = outcome(answer, &all, (state.predictor, state.step_index), size);

    let mut state = sprettuhol::AdpcmImaState {
        predictor,
        step_index,
    };
    let call = |out: &mut [u8]| index_adpcm_ima_ima4(&buf, &mut state, every, out);
    let (answer, all) = lent(len, call);
    let (answer, size) = (told(answer.map(|()| "done")), index_bytes(blocks, every));
    let next = (state.predictor, state.step_index);
    (expected, outcome(&answer, &all, next, size))
}

/// What does not fit of a run, an index or the block to start at; the run, the index and the block.
fn trial(random: &mut Random) -> (&'static str, Vec<u8>, Vec<u8>, usize) {
    let (of, mut buf, mut state) = run(random);
    let mut index = indexed(&buf, any_every(random), &mut state);
    let blocks = buf.len() / 34;
    let any = below(random, blocks.max(1));
    let behind = pick(random, &[blocks, blocks + 1, usize::MAX]);
    let from = pick(random, &[0, any, any, any, blocks.max(1) - 1, behind]);
    let no_block = (from >= blocks).then_some("from");
    if no_block.is_none() {
        age(random, &mut buf[34 * from..], &mut index[4..]);
    }
    let of = first(of, spoil(random, &mut index));
    (first(of, no_block), buf, index, from)
}

/// Every second time the index is not the run's: there are other blocks, or other states, or in each state
/// another low byte of the predictor, or an index that is far above 88.
fn age(random: &mut Random, blocks: &mut [u8], states: &mut [u8]) {
    match below(random, 8) {
        0 => blocks.copy_from_slice(&bytes(random, blocks.len())),
        1 => states.copy_from_slice(&bytes(random, states.len())),
        2 => states.chunks_exact_mut(3).for_each(|state| state[1] ^= 42),
        3 => states.chunks_exact_mut(3).for_each(|state| state[2] |= 128),
        _ => {}
    }
}

/// Every fourth time the index does not fit.
fn spoil(random: &mut Random, index: &mut Vec<u8>) -> Option<&'static str> {
    let of = pick(random, &["every", "length", "version", "count"]);
    if below(random, 4) > 0 {
        return None;
    }
    match of {
        "every" => index[3] = no_every(random),
        "length" => index.resize(another(random, index.len()), 0),
        "version" => index[2] = pick(random, &[0, 2, 255]),
        _ => {
            let count = &mut index[below(random, 2)];
            *count = count.wrapping_add(pick(random, &[1, 2, 255]));
        }
    }
    Some(of)
}

/// What a call is given; of the index the head and the length.
pub fn given(buf: &[u8], index: &[u8], from: usize) -> String {
    let (bytes, len) = (buf.len(), index.len());
    let head = &index[..len.min(4)];
    format!("{bytes} bytes from {from}, {head:?} of {len}")
}

fn reindex(seed: u64) -> Both {
    let (of, buf, index, from) = trial(&mut random(seed));
    let outcome = |answer: &str, all: &[u8]| {
        let answer = format!("{of}: {answer}");
        let given = given(&buf, &index, from);
        ("reindex_adpcm_ima_ima4", answer, given, numbers(all))
    };

    let (answer, all) = lent(index.len(), |out| {
        out.copy_from_slice(&index);
        refusal(of).unwrap_or_else(|| {
            let (block, mut state) = start(&index, from);
            let states = states(&buf[34 * block..], index[3], &mut state);
            // the first of these is at or before the block
            let behind = out.len() - states.len() + 3;
            out[behind..].copy_from_slice(&states[3..]);
            "done"
        })
    });
    let expected = outcome(answer, &all);
    let (answer, all) = lent(index.len(), |out| {
        out.copy_from_slice(&index);
        reindex_adpcm_ima_ima4(&buf, from, out)
    });
    (expected, outcome(&told(answer.map(|()| "done")), &all))
}

/// The same, and how many samples there is room for.
pub fn to_decode(random: &mut Random) -> (&'static str, Vec<u8>, Vec<u8>, usize, usize) {
    let (of, buf, index, from) = trial(random);
    let fitting = 64 * (buf.len() / 34).saturating_sub(from);
    let other = pick(random, &[fitting + 1, fitting + 64, fitting.max(1) - 1]);
    let len = pick(random, &[fitting, fitting, fitting, fitting, other]);
    let of = first(of, (len != fitting).then_some("samples"));
    (of, buf, index, from, len)
}

fn decode_from(seed: u64) -> Both {
    let (of, buf, index, from, len) = to_decode(&mut random(seed));
    let outcome = |answer: &str, all: &[i16], state: Option<(i16, u8)>| {
        let answer = format!("{of}: {answer}");
        let given = format!("{}, {state:?}", given(&buf, &index, from));
        ("decode_adpcm_ima_ima4_from", answer, given, numbers(all))
    };

    let mut last = None;
    let (answer, all) = lent(len, |out: &mut [i16]| {
        refusal(of).unwrap_or_else(|| {
            let (block, mut state) = start(&index, from);
            let asked = decoded(&buf[34 * block..], &mut state).split_off(from - block);
            for ((_, samples), out) in asked.iter().zip(out.chunks_exact_mut(64)) {
                out.copy_from_slice(samples);
            }
            last = Some((state.predictor, state.step_index));
            "done"
        })
    });
    let expected = outcome(answer, &all, last);
    let call = |out: &mut [i16]| decode_adpcm_ima_ima4_from(&buf, &index, from, out);
    let (answer, all) = lent(len, call);
    let both = |state: &sprettuhol::AdpcmImaState| (state.predictor, state.step_index);
    let last = answer.as_ref().map(both).ok();
    (expected, outcome(&told(answer.map(|_| "done")), &all, last))
}
