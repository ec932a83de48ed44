//! A run may be cut at any block: its parts, each from the state that the one before it handed back,
//! give what the whole gives.

use crate::blocks::{BYTES, MOST, SAMPLES};
use crate::calls::{Call, DECODE, ENCODE};
use crate::nibble;
use crate::outcome::Outcome;
use crate::report::Report;
use crate::runs::{contents, STATES};
use crate::signal::speech;
use std::fmt::Debug;

/// Ours in two parts is held to the oracle's whole, and so is ours in one: the numbers, all that comes
/// out, and both numbers of the state.
pub fn report(progress: bool) -> Report {
    let report = Report::start(progress, "ima4 cuts");
    let all = [0, 1, 2, 3, 4, 5, 6, 7];
    let some = [1, 2, 31, 512, MOST - 2, MOST - 1];
    for (blocks, edges) in [(7, &all[..]), (MOST, &some)] {
        for (name, samples) in contents(9, blocks * SAMPLES) {
            for state in STATES {
                let bytes = compare(&report, name, &ENCODE, &samples, state, edges);
                compare(&report, name, &DECODE, &bytes, state, edges);
            }
        }
    }
    pair();
    report
}

/// Hands back what the oracle made of the whole.
pub fn compare<A, B: Copy + PartialEq + Debug + From<u8>, S: Copy + PartialEq + Debug>(
    report: &Report,
    name: &str,
    call: &Call<A, B, S>,
    input: &[A],
    state: S,
    edges: &[usize],
) -> Vec<B> {
    let len = input.len() / call.from * call.to;
    let whole = Outcome::of(len, state, |state, out| (call.oracle)(input, state, out));
    let ours = Outcome::of(len, state, |state, out| (call.ours)(input, state, out));
    ours.compare(report, (call.name, name, state, "in one"), &whole);
    for &edge in edges {
        let ours = Outcome::of(len, state, |state, out| {
            let (first, rest) = input.split_at(edge * call.from);
            let (out_of_first, out_of_rest) = out.split_at_mut(edge * call.to);
            let number = (call.ours)(first, state, out_of_first);
            number.max((call.ours)(rest, state, out_of_rest))
        });
        ours.compare(report, (call.name, name, state, "cut at", edge), &whole);
    }
    whole.buffer().to_vec()
}

/// Two blocks of speech, by each side. A header has no room for the low seven bits of a predictor. A
/// decoder that the state is carried to has them, and gives what the encoder went through; one that
/// starts the second block from a zeroed state has not, and parts from it.
fn pair() {
    let samples = speech(1, 2 * SAMPLES);
    let encoders = predictors(&samples);
    for (encode, decode) in [(ENCODE.ours, DECODE.ours), (ENCODE.oracle, DECODE.oracle)] {
        let mut bytes = [0; 2 * BYTES];
        encode(&samples, &mut (0, 0), &mut bytes);
        let (first, second) = bytes.split_at(BYTES);
        let mut carried = (0, 0);
        let mut decoded = [0; SAMPLES];
        decode(first, &mut carried, &mut decoded);
        assert_eq!(decoded, encoders[..SAMPLES], "the first block");
        assert_ne!(carried.0 & 0x7f, 0, "there is something to lose");
        decode(second, &mut carried, &mut decoded);
        assert_eq!(decoded, encoders[SAMPLES..], "the state is carried");
        decode(second, &mut (0, 0), &mut decoded);
        assert_ne!(decoded, encoders[SAMPLES..], "the state is zeroed");
    }
}

/// What an encoder's predictor is after each sample, from zero.
fn predictors(samples: &[i16]) -> Vec<i16> {
    let (mut predictor, mut index) = (0, 0);
    let mut next = |&sample| {
        (_, predictor, index) = nibble::oracle::encode((sample, predictor, index));
        predictor
    };
    samples.iter().map(&mut next).collect()
}
