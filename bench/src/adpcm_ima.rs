//! One nibble of IMA ADPCM a call, each from a state of its own.

use crate::nibble::{oracle, ours, Before};
use crate::timing::{row, shuffled, Row};

const COPY: Option<&str> =
    Some("copies the step table of 178 bytes: a constant array is rebuilt where it is read");

pub fn rows() -> Vec<Row> {
    let nibbles = shuffled((0..=u16::MAX).map(nibble).collect());
    // what the nibbles decode to: samples at random would nearly all be coded as the largest step
    let sample = |&(nibble, predictor, index)| {
        let (sample, ..) = oracle::decode((nibble, predictor, index));
        (sample, predictor, index)
    };
    let samples: Vec<Before<i16>> = nibbles.iter().map(sample).collect();
    vec![
        row(
            "decode_adpcm_ima",
            &nibbles,
            ours::decode,
            oracle::decode,
            entry,
            COPY,
        ),
        row(
            "encode_adpcm_ima",
            &samples,
            ours::encode,
            oracle::encode,
            entry,
            COPY,
        ),
    ]
}

/// A call reads the table at the index of its state.
fn entry<T>((input, predictor, index): Before<T>, table: &[u16; 89]) -> Before<T> {
    (input, predictor, index ^ table[usize::from(index)] as u8)
}

/// Every nibble at every index of the table, from predictors over the whole range.
fn nibble(n: u16) -> Before<u8> {
    let predictor = n.wrapping_mul(40_503) as i16;
    ((n % 16) as u8, predictor, (n / 16 % 89) as u8)
}
