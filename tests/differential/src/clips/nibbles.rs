//! One step, from every state: all 65,536 predictors with all 256 indices. Each call is asked over C, and once
//! more lent its state. The decoder is given every nibble, and the encoder the samples at which an answer can go
//! wrong by one. The count starts at 0, and from some predictors, the ends among them, at the others too.

use super::plain::{self, State};
use super::{ours, COUNTS};
use crate::domain::predictors;
use crate::lent;
use crate::nibble::oracle;
use crate::parallel::each;
use crate::places::Places;
use crate::report::{compare_each, Report};

/// Compared are the sample and all three numbers of the state.
pub fn decode(progress: bool) -> [Report; 2] {
    let over_c = Report::start(progress, "decode_adpcm_ima clips");
    let in_place = Report::start(progress, "decode lent clips");
    each(0..=u8::MAX, |index| {
        for predictor in predictors() {
            // only the low half of a byte counts
            let high = (predictor as u8) << 4;
            let bytes = (0..16).map(|nibble| high | nibble);
            let inputs =
                bytes.flat_map(|byte| states(predictor, index).map(move |state| (byte, state)));
            let both =
                |(byte, state)| [ours::decode(byte, state), lent::decode_metered(byte, state)];
            compare_each([&over_c, &in_place], inputs, both, decoded);
        }
    });
    [over_c, in_place]
}

/// Compared are the nibble and all three numbers of the state.
pub fn encode(progress: bool) -> [Report; 2] {
    let over_c = Report::start(progress, "encode_adpcm_ima clips");
    let in_place = Report::start(progress, "encode lent clips");
    each(0..=u8::MAX, |index| {
        let places = Places::of(index);
        for predictor in predictors() {
            let samples = places.samples(predictor);
            let inputs = samples
                .flat_map(|sample| states(predictor, index).map(move |state| (sample, state)));
            let both = |(sample, state)| {
                [
                    ours::encode(sample, state),
                    lent::encode_metered(sample, state),
                ]
            };
            compare_each([&over_c, &in_place], inputs, both, encoded);
        }
    });
    [over_c, in_place]
}

fn states(predictor: i16, index: u8) -> impl Iterator<Item = State> {
    let place = i32::from(predictor) - i32::from(i16::MIN);
    let counts = if place % 51 == 0 {
        &COUNTS[..]
    } else {
        &COUNTS[..1]
    };
    counts
        .iter()
        .map(move |&clipped| (predictor, index, clipped))
}

fn decoded((byte, mut state): (u8, State)) -> (i16, State) {
    plain::step(byte, &mut state);
    (state.0, state)
}

/// The nibble is the oracle's, and the step is the one that it makes.
fn encoded((sample, mut state): (i16, State)) -> (u8, State) {
    let (nibble, ..) = oracle::encode((sample, state.0, state.1));
    plain::step(nibble, &mut state);
    (nibble, state)
}
