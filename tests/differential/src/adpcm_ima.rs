//! One nibble of IMA ADPCM, from every state: all 65,536 predictors with all 256 indices. Each call is asked
//! over C, and once more lent its state; the oracle is asked once for both.
//!
//! The decoder's whole domain, 2^32 inputs, is compared in every run. The encoder's, 2^40, is for the
//! exhaustive run; here it is asked about the samples at which an answer can go wrong by one, from
//! every state, and about all samples from some states.

use crate::domain::predictors;
use crate::lent;
use crate::nibble::{oracle, ours};
use crate::parallel::each;
use crate::places::Places;
use crate::report::{compare_each, Report};
use crate::sweep;

pub fn reports(progress: bool) -> Vec<Report> {
    let [decoded, decoded_lent] = decode(progress);
    let [encoded, encoded_lent] = encode(progress);
    let swept = sweep::some(progress);
    vec![decoded, encoded, decoded_lent, encoded_lent, swept]
}

fn decode(progress: bool) -> [Report; 2] {
    let over_c = Report::start(progress, "decode_adpcm_ima");
    let in_place = Report::start(progress, "decode_adpcm_ima lent");
    each(0..=u8::MAX, |index| {
        for predictor in predictors() {
            let inputs = (0..=u8::MAX).map(|byte| (byte, predictor, index));
            let both = |input| [ours::decode(input), lent::decode(input)];
            compare_each([&over_c, &in_place], inputs, both, oracle::decode);
        }
    });
    [over_c, in_place]
}

fn encode(progress: bool) -> [Report; 2] {
    let over_c = Report::start(progress, "encode_adpcm_ima");
    let in_place = Report::start(progress, "encode_adpcm_ima lent");
    each(0..=u8::MAX, |index| {
        let places = Places::of(index);
        for predictor in predictors() {
            let samples = places.samples(predictor);
            let inputs = samples.map(|sample| (sample, predictor, index));
            let both = |input| [ours::encode(input), lent::encode(input)];
            compare_each([&over_c, &in_place], inputs, both, oracle::encode);
            // a check of the samples themselves, from some states
            if number(predictor, index).is_multiple_of(4099) {
                places.check(predictor);
            }
        }
    });
    [over_c, in_place]
}

/// Each state has a number below 2^24.
fn number(predictor: i16, index: u8) -> u32 {
    u32::from(index) << 16 | u32::from(predictor as u16)
}
