//! Prints a fixed list of the oracle's answers, one call to a line. The proved program `replay` reads
//! the list and gives its own answers, so that proved code is held to the oracle's with no Rust
//! around it.
//!
//! A family of calls has one function here, which `main` calls; a call has one number, for good.

#[path = "../differential/src/signal.rs"]
mod signal;

use audio_codec_algorithms::{decode_adpcm_ima, encode_adpcm_ima, AdpcmImaState};
use audio_codec_algorithms::{decode_adpcm_ima_ima4, encode_adpcm_ima_ima4};
use audio_codec_algorithms::{decode_alaw, decode_ulaw, encode_alaw, encode_ulaw};
use signal::{noise, speech};
use std::collections::BTreeSet;

const HEAD: &str = "\
# The oracle's answers, for the program replay. Do not edit: the oracle writes this file, by
#   cargo run --release --manifest-path tests/oracle/Cargo.toml --bin answers > crates/replay/data/answers.txt
# A line that starts with '#' is a comment. Every other line is one call, as bytes in hex: the call's
# number, its input, the oracle's answer. A 16-bit number is two bytes, high byte first, two's
# complement.";

fn main() {
    println!("{HEAD}");
    g711();
    adpcm_ima();
    ima4();
}

/// The two laws: all codes, and the samples where the code changes.
fn g711() {
    title("01 decode_ulaw: code, sample");
    decoder(0x01, decode_ulaw);
    title("02 encode_ulaw: sample, code");
    encoder(0x02, encode_ulaw);
    title("03 decode_alaw: code, sample");
    decoder(0x03, decode_alaw);
    title("04 encode_alaw: sample, code");
    encoder(0x04, encode_alaw);
}

fn decoder(call: u8, decode: fn(u8) -> i16) {
    for code in 0..=u8::MAX {
        line(call, &[code], &decode(code).to_be_bytes());
    }
}

/// The ends, some samples about zero, and the samples where the code changes.
fn encoder(call: u8, encode: fn(i16) -> u8) {
    let mut samples = changes(encode);
    samples.extend([i16::MIN, -4, -1, 0, 1, 4, i16::MAX]);
    for sample in samples {
        line(call, &sample.to_be_bytes(), &[encode(sample)]);
    }
}

/// Both sides of each place where the oracle's code changes; between two such places it stays the same.
fn changes(encode: impl Fn(i16) -> u8) -> BTreeSet<i16> {
    let mut samples = BTreeSet::new();
    for sample in i16::MIN + 1..=i16::MAX {
        if encode(sample) != encode(sample - 1) {
            samples.extend([sample - 1, sample]);
        }
    }
    samples
}

/// One nibble of IMA ADPCM. A state is a predictor and an index.
fn adpcm_ima() {
    title("05 decode_adpcm_ima: nibble, predictor, index, sample, next predictor, next index");
    title("the numbers that the scope names");
    assert_eq!(decode(7, (0, 0)), (11, (11, 8)));
    assert_eq!(decode(15, (0, 0)), (-11, (-11, 8)));
    assert_eq!(decode(8, (0, 0)), (0, (0, 0)));
    assert_eq!(decode(0, (0, 255)), (4095, (4095, 87)));
    assert_eq!(decode(7, (0, 88)), (32767, (32767, 88)));
    title("every nibble at every index, and at some indices above the table");
    for index in (0..=88).chain([89, 127, 200, 255]) {
        nibbles(index);
    }

    title("06 encode_adpcm_ima: sample, predictor, index, nibble, next predictor, next index");
    title("the numbers that the scope names");
    assert_eq!(encode(0, (0, 0)), (0, (0, 0)));
    assert_eq!(encode(-1, (0, 0)), (9, (-1, 0)));
    assert_eq!(encode(32767, (0, 0)), (7, (11, 8)));
    assert_eq!(encode(32767, (32758, 0)), (5, (32766, 4)));
    title("the ends, and both sides of each sample where the nibble changes");
    for index in [0, 1, 8, 44, 87, 88, 255] {
        samples((0, index));
    }
    for index in [8, 88] {
        samples((i16::MIN, index));
        samples((i16::MAX, index));
    }
}

/// From the limits, where half of the nibbles clip, and from between. The upper bits of the byte, which
/// mean nothing, take all values.
fn nibbles(index: u8) {
    let predictors = [0, i16::MAX, -12345, i16::MIN, 32000];
    for nibble in 0..16 {
        let turn = usize::from(index) + usize::from(nibble);
        let predictor = predictors[turn % predictors.len()];
        decode(index << 4 | nibble, (predictor, index));
    }
}

fn samples(state: (i16, u8)) {
    let mut samples = changes(|sample| encode_adpcm_ima(sample, &mut of(state)));
    samples.extend([i16::MIN, i16::MAX]);
    for sample in samples {
        encode(sample, state);
    }
}

/// Prints the line of a nibble.
fn decode(nibble: u8, state: (i16, u8)) -> (i16, (i16, u8)) {
    let mut next = of(state);
    let sample = decode_adpcm_ima(nibble, &mut next);
    let next = (next.predictor, next.step_index);
    let input = [&[nibble], &bytes(state)[..]].concat();
    let answer = [&sample.to_be_bytes(), &bytes(next)[..]].concat();
    line(0x05, &input, &answer);
    (sample, next)
}

/// Prints the line of a sample.
fn encode(sample: i16, state: (i16, u8)) -> (u8, (i16, u8)) {
    let mut next = of(state);
    let nibble = encode_adpcm_ima(sample, &mut next);
    let next = (next.predictor, next.step_index);
    let input = [&sample.to_be_bytes(), &bytes(state)[..]].concat();
    let answer = [&[nibble], &bytes(next)[..]].concat();
    line(0x06, &input, &answer);
    (nibble, next)
}

/// Blocks of ima4, each by itself, and two of speech that follow each other.
fn ima4() {
    title("07 decode_adpcm_ima_ima4: predictor, index, 34 bytes, 64 samples, next predictor, next index");
    title("the numbers that the scope names");
    assert_eq!(decode_block(&[0; 34], (100, 0)).0, [100; 64]);
    assert_eq!(decode_block(&[0; 34], (127, 0)).0, [127; 64]);
    assert_eq!(decode_block(&[0; 34], (128, 0)).0, [0; 64]);
    assert_eq!(decode_block(&[0; 34], (-128, 0)).0, [0; 64]);
    kept_or_not();
    title("clipped, both ways");
    decode_block(&[0x77; 34], (0, 0));
    decode_block(&[0xff; 34], (-100, 88));

    title("08 encode_adpcm_ima_ima4: predictor, index, 64 samples, 34 bytes, next predictor, next index");
    title("speech, two blocks in a row");
    let speech = speech(1, 128);
    let (first, state) = encode_block(&speech[..64], (0, 0));
    let (second, _) = encode_block(&speech[64..], state);
    title("from other states, speech and full-scale noise, and silence");
    for state in [(0, 88), (0, 200), (i16::MIN, 0), (i16::MAX, 255)] {
        encode_block(&speech[..64], state);
        encode_block(&noise(1, 64), state);
    }
    encode_block(&[0; 64], (-12345, 44));

    title("07 again, on what 08 gave: the second block from the state that the first left, and from zero");
    let (_, carried) = decode_block(&first, (0, 0));
    assert_eq!(carried, state);
    let samples = decode_block(&second, carried).0;
    assert_ne!(samples, decode_block(&second, (0, 0)).0);
}

/// The decoder keeps its state when the index is the header's and the predictor is near the header's.
fn kept_or_not() {
    title("header 4736 and 44, at both sides of the limits, and from another index");
    for away in [-128, -127, 127, 128] {
        decode_block(&block(0x12ac), (4736 + away, 44));
    }
    decode_block(&block(0x12ac), (4741, 43));
    decode_block(&block(0x12ac), (4741, 45));
    title("the header's index, 127, is lowered to 88, and the decoder's own is not");
    decode_block(&block(0x12ff), (4741, 88));
    decode_block(&block(0x12ff), (4741, 127));
    title("72 is what an index of 200 would be without its highest bit");
    decode_block(&block(0x12c8), (4741, 72));
    decode_block(&block(0x12c8), (4741, 200));
    title("headers at the ends: -32768 and 32640");
    decode_block(&block(0x8000), (-32641, 0));
    decode_block(&block(0x8000), (-32640, 0));
    decode_block(&block(0x7f80), (32767, 0));
    decode_block(&block(0x7f80), (32512, 0));
}

/// That header, and a body with every nibble in it. It starts with small steps, so that what the block
/// starts from is seen.
fn block(header: u16) -> [u8; 34] {
    let mut block = [0; 34];
    block[..2].copy_from_slice(&header.to_be_bytes());
    for (k, byte) in block[2..].iter_mut().enumerate() {
        *byte = (k * 171) as u8;
    }
    block
}

/// Prints the line of a block to decode.
fn decode_block(block: &[u8; 34], state: (i16, u8)) -> ([i16; 64], (i16, u8)) {
    let mut next = of(state);
    let mut samples = [0; 64];
    decode_adpcm_ima_ima4(block, &mut next, &mut samples);
    let next = (next.predictor, next.step_index);
    let input = [&bytes(state), &block[..]].concat();
    let answer = [&all_bytes(&samples), &bytes(next)[..]].concat();
    line(0x07, &input, &answer);
    (samples, next)
}

/// Prints the line of a block to encode.
fn encode_block(samples: &[i16], state: (i16, u8)) -> ([u8; 34], (i16, u8)) {
    let mut next = of(state);
    let mut block = [0; 34];
    let samples = samples.try_into().expect("a block has 64 samples");
    encode_adpcm_ima_ima4(samples, &mut next, &mut block);
    let next = (next.predictor, next.step_index);
    let input = [&bytes(state), &all_bytes(samples)[..]].concat();
    let answer = [&block, &bytes(next)[..]].concat();
    line(0x08, &input, &answer);
    (block, next)
}

fn of((predictor, step_index): (i16, u8)) -> AdpcmImaState {
    AdpcmImaState {
        predictor,
        step_index,
    }
}

fn bytes((predictor, index): (i16, u8)) -> [u8; 3] {
    let [high, low] = predictor.to_be_bytes();
    [high, low, index]
}

fn all_bytes(samples: &[i16; 64]) -> Vec<u8> {
    let bytes = samples.iter().map(|sample| sample.to_be_bytes());
    bytes.flatten().collect()
}

fn title(text: &str) {
    println!("# {text}");
}

fn line(call: u8, input: &[u8], answer: &[u8]) {
    let bytes = [&[call], input, answer].concat();
    let words: Vec<String> = bytes.iter().map(|byte| format!("{byte:02X}")).collect();
    println!("{}", words.join(" "));
}
