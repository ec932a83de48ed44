//! The calls that the binding adds, but for those of an index (seek.rs). A run is held to the Rust's call
//! for one block, with the state handed on; decoding of MS blocks to its decoder, channel by channel where there
//! are more than two, and to the rule of strict reading; repacking to its decoder and then its encoder, and to
//! that rule; the loss report to a plain loop. What is refused leaves all as it was.

use crate::{oracle, plain, strict, TAKEN};
use audio_codec_algorithms::{decode_adpcm_ima_ima4, encode_adpcm_ima_ima4};
use audio_codec_algorithms::{decode_adpcm_ima_ms, AdpcmImaState};
use calls_rust::{below, bytes, index, indices, lengths, lent, ms_bytes, pick, random, sample};
use calls_rust::{plain as numbers, samples, signal::Random, sized, Block, Outcome};
use sprettuhol::{decode_adpcm_ima_ima4_run, encode_adpcm_ima_ima4_run};
use sprettuhol::{decode_adpcm_ima_ms_channels, ms_samples, repack_adpcm_ima_ms};
use sprettuhol::{lenient, loss_report, Loss, Refusal};
use sprettuhol::{IMA4_BLOCK_BYTES, IMA4_BLOCK_SAMPLES, IMA4_MOST_BLOCKS};
use sprettuhol::{LOSS_MOST_SAMPLES, MS_MOST_BYTES, MS_MOST_CHANNELS};

const _: fn(u8, usize) -> Option<usize> = ms_samples;
// the constants have the type and the numbers of the macros in C
const _: () = {
    let ima4: [usize; 3] = [IMA4_BLOCK_BYTES, IMA4_BLOCK_SAMPLES, IMA4_MOST_BLOCKS];
    assert!(matches!(ima4, [34, 64, 1_024]));
    let others: [usize; 3] = [MS_MOST_BYTES, MS_MOST_CHANNELS, LOSS_MOST_SAMPLES];
    assert!(matches!(others, [65_535, 8, 131_063]));
};

/// What is expected, and what the binding did.
pub type Both = (Outcome, Outcome);

pub const CALLS: [fn(u64) -> Both; 9] = [
    decode_run,
    encode_run,
    decode_lenient,
    decode_channels,
    decode_channels_lenient,
    count_samples,
    repack,
    repack_lenient,
    loss,
];

/// All answers, after the numbers of blocks, the channel numbers, or what the lengths are.
pub const RUNS: [(&str, &str); 2] = [
    ("0 | 1 | 2 | 7 | 1024", "done"),
    ("1025 | unfitting", REFUSALS[2]),
];
const OTHERS: &str = "0 | 0 long | 9 | 9 long | 255 | 255 long";
/// Lenient reading has all of these but the last.
pub const DECODINGS: [(&str, &str); 4] = [
    (TAKEN, "done"),
    (TAKEN, REFUSALS[1]),
    (OTHERS, REFUSALS[0]),
    (TAKEN, REFUSALS[4]),
];
pub const COUNTS: [(&str, &str); 3] = [(TAKEN, "done"), (TAKEN, "none"), (OTHERS, "none")];
/// Lenient reading has all of these but the last.
pub const REPACKINGS: [(&str, &str); 5] = [
    (TAKEN, "done, same"),
    (TAKEN, "done, changed"),
    (TAKEN, REFUSALS[1]),
    (OTHERS, REFUSALS[0]),
    (TAKEN, REFUSALS[4]),
];
pub const LOSSES: [(&str, &str); 3] = [
    ("equal", "done, same"),
    ("equal", "done, moved"),
    ("unequal | long", REFUSALS[1]),
];

/// Each refusal, its number and its text.
pub const REFUSALS: [&str; 5] = [
    "Channels 1, the channel number is not 1 to 8",
    "Lengths 2, a length is not allowed, or two lengths do not fit each other",
    "Blocks 3, not 34 bytes and 64 samples a block, or over 1,024 blocks",
    "Index 5, not 1 to 64 blocks a state, an unfitting index, or no such block",
    "StepIndex 8, a header has a step index above 88",
];

/// An answer of the binding.
pub fn told(answer: Result<&str, Refusal>) -> String {
    let words = |refusal: Refusal| format!("{refusal:?} {}, {refusal}", refusal.number());
    answer.map_or_else(words, String::from)
}

fn decode_run(seed: u64) -> Both {
    let random = &mut random(seed);
    let (run @ (.., samples_len), buf) = run_to_decode(random);
    let binding = |state: &mut _, out: &mut [_]| decode_adpcm_ima_ima4_run(&buf, state, out);
    let rust = |state: &mut _, out: &mut [_]| decode_blocks(&buf, state, out);
    let call = "decode_adpcm_ima_ima4_run";
    both_runs(call, random, run, samples_len, rust, binding)
}

fn encode_run(seed: u64) -> Both {
    let random = &mut random(seed);
    let run @ (_, bytes_len, samples_len) = run_lengths(random);
    let samples = samples(random, samples_len);
    let binding = |state: &mut _, out: &mut [_]| encode_adpcm_ima_ima4_run(&samples, state, out);
    let rust = |state: &mut _, out: &mut [_]| encode_blocks(&samples, state, out);
    let call = "encode_adpcm_ima_ima4_run";
    both_runs(call, random, run, bytes_len, rust, binding)
}

pub fn decode_blocks(buf: &[u8], state: &mut AdpcmImaState, out: &mut [i16]) {
    for (block, out) in buf.chunks_exact(34).zip(out.chunks_exact_mut(64)) {
        decode_adpcm_ima_ima4(block.try_into().unwrap(), state, out.try_into().unwrap());
    }
}

pub fn encode_blocks(samples: &[i16], state: &mut AdpcmImaState, out: &mut [u8]) {
    for (block, out) in samples.chunks_exact(64).zip(out.chunks_exact_mut(34)) {
        encode_adpcm_ima_ima4(block.try_into().unwrap(), state, out.try_into().unwrap());
    }
}

/// Every second time the blocks are the Rust's own, at whose headers the state is kept.
pub fn run_to_decode(random: &mut Random) -> (Run, Vec<u8>) {
    let run @ (_, bytes_len, _) = run_lengths(random);
    let mut buf = bytes(random, bytes_len);
    if pick(random, &[true, false]) {
        let samples = samples(random, bytes_len / 34 * 64);
        encode_blocks(&samples, &mut AdpcmImaState::new(), &mut buf);
    }
    (run, buf)
}

/// A number of blocks; and how many bytes and samples, which fit it more often than not.
pub type Run = (usize, usize, usize);

pub fn run_lengths(random: &mut Random) -> Run {
    let long = pick(random, &[1024, 1025]);
    let blocks = pick(random, &[0, 1, 2, 7, 7, 7, 7, long]);
    let off = |len: usize, block| [len + 1, len.saturating_sub(1), len + block];
    let (bytes, samples) = (34 * blocks, 64 * blocks);
    match below(random, 6) {
        0 => (blocks, pick(random, &off(bytes, 34)), samples),
        1 => (blocks, bytes, pick(random, &off(samples, 64))),
        _ => (blocks, bytes, samples),
    }
}

/// How many blocks a run has, if the lengths fit, and whether it is refused.
pub fn run_of((blocks, bytes, samples): Run) -> (String, Option<&'static str>) {
    let fits = bytes == 34 * blocks && samples == 64 * blocks;
    let of = fits.then(|| blocks.to_string());
    let refusal = (!fits || blocks > 1024).then_some(REFUSALS[2]);
    (of.unwrap_or("unfitting".into()), refusal)
}

/// A run by both, from one state at random, into a buffer of that length.
fn both_runs<T: Copy + From<u8> + Into<i32>>(
    call: &'static str,
    random: &mut Random,
    run @ (_, bytes, samples): Run,
    len: usize,
    rust: impl FnOnce(&mut AdpcmImaState, &mut [T]),
    binding: impl FnOnce(&mut sprettuhol::AdpcmImaState, &mut [T]) -> Result<(), Refusal>,
) -> Both {
    let (predictor, step_index) = (sample(random), index(random));
    let (of, refusal) = run_of(run);
    let outcome = |answer: &str, all: &[T], state: [i32; 2]| {
        let answer = format!("{of}: {answer}");
        let given = format!("{bytes} bytes, {samples} samples");
        (call, answer, given, [numbers(all), state.to_vec()].concat())
    };

    let mut state = AdpcmImaState {
        predictor,
        step_index,
    };
    let (answer, all) = lent(len, |out| {
        refusal.unwrap_or_else(|| {
            rust(&mut state, out);
            "done"
        })
    });
    let state = [state.predictor.into(), state.step_index.into()];
    let expected = outcome(answer, &all, state);

    let mut state = sprettuhol::AdpcmImaState {
        predictor,
        step_index,
    };
    let (answer, all) = lent(len, |out| binding(&mut state, out));
    let answer = told(answer.map(|()| "done"));
    let state = [state.predictor.into(), state.step_index.into()];
    (expected, outcome(&answer, &all, state))
}

/// The blocks that the ported decoder is given too.
fn decode_lenient(seed: u64) -> Both {
    let block = Block::new(&mut random(seed));
    let call = "lenient::decode_adpcm_ima_ms";
    let expected = block.decoded(call, decode_adpcm_ima_ms);
    (expected, block.decoded(call, lenient::decode_adpcm_ima_ms))
}

/// A channel number, most often one that is taken; a block at random, or what the Rust's encoder makes of samples,
/// if it takes them; and a number of samples, which fits more often than not.
pub fn ms_block(random: &mut Random) -> (u8, Vec<u8>, usize) {
    let others = pick(random, &[0, 9, 255]);
    let channels = pick(random, &[1, 2, 3, 4, 5, 6, 7, 8, others]);
    let (block_len, samples_len) = lengths(random, channels.into());
    let mut block = ms_bytes(random, channels.into(), block_len);
    if pick(random, &[true, false]) {
        let mut states = [(0, 0); 8];
        for ((_, lent), index) in states.iter_mut().zip(indices(random, 8)) {
            *lent = index;
        }
        let samples = samples(random, oracle::fitting(channels, block_len));
        oracle::encode(channels, &samples, &mut states, &mut block);
    }
    (channels, block, samples_len)
}

/// What the Rust refused, if it did, and what it left. But where `refused` says so, what the Rust takes is to be
/// refused for its index.
fn by_rust<T: From<u8>>(
    len: usize,
    refused: bool,
    rust: impl FnOnce(&mut [T]) -> u8,
) -> (Option<&'static str>, Vec<T>) {
    match lent(len, rust) {
        (0, _) if refused => (Some(REFUSALS[4]), lent(len, |_| ()).1),
        (0, all) => (None, all),
        (number, all) => (Some(REFUSALS[usize::from(number) - 1]), all),
    }
}

fn decode_channels(seed: u64) -> Both {
    let call = "decode_adpcm_ima_ms_channels";
    both_decodings(call, seed, strict::refuses, decode_adpcm_ima_ms_channels)
}

fn decode_channels_lenient(seed: u64) -> Both {
    let call = "lenient::decode_adpcm_ima_ms_channels";
    let binding = lenient::decode_adpcm_ima_ms_channels;
    both_decodings(call, seed, |_, _| false, binding)
}

pub fn both_decodings(
    call: &'static str,
    seed: u64,
    refuses: fn(u8, &[u8]) -> bool,
    binding: impl FnOnce(u8, &[u8], &mut [i16]) -> Result<(), Refusal>,
) -> Both {
    let (channels, block, len) = ms_block(&mut random(seed));
    let outcome = |answer: &str, all: &[i16]| {
        let answer = format!("{}: {answer}", sized(channels.into(), block.len()));
        let given = format!("{} bytes, {len} samples", block.len());
        let left = [numbers(all), numbers(&block)].concat();
        (call, answer, given, left)
    };

    let refused = refuses(channels, &block);
    let (answer, all) = by_rust(len, refused, |out| oracle::decode(channels, &block, out));
    let expected = outcome(answer.unwrap_or("done"), &all);
    let (answer, all) = lent(len, |out| binding(channels, &block, out));
    (expected, outcome(&told(answer.map(|()| "done")), &all))
}

/// There is a number for what the Rust decodes, and none for what it refuses.
fn count_samples(seed: u64) -> Both {
    let (channels, block, _) = ms_block(&mut random(seed));
    let outcome = |samples: Option<usize>| {
        let answer = samples.map_or("none", |_| "done");
        let answer = format!("{}: {answer}", sized(channels.into(), block.len()));
        let given = format!("{} bytes, {samples:?} samples", block.len());
        ("ms_samples", answer, given, vec![])
    };

    let mut samples = vec![0; oracle::fitting(channels, block.len())];
    let taken = oracle::decode(channels, &block, &mut samples) == 0;
    let expected = outcome(taken.then_some(samples.len()));
    (expected, outcome(ms_samples(channels, block.len())))
}

type Repack = fn(u8, &[u8], &mut [u8]) -> Result<bool, Refusal>;

fn repack(seed: u64) -> Both {
    let call = "repack_adpcm_ima_ms";
    both_repackings(call, seed, strict::refuses, repack_adpcm_ima_ms)
}

fn repack_lenient(seed: u64) -> Both {
    let call = "lenient::repack_adpcm_ima_ms";
    both_repackings(call, seed, |_, _| false, lenient::repack_adpcm_ima_ms)
}

fn both_repackings(
    call: &'static str,
    seed: u64,
    refuses: fn(u8, &[u8]) -> bool,
    binding: Repack,
) -> Both {
    let random = &mut random(seed);
    let (channels, block, _) = ms_block(random);
    let block_len = block.len();
    let off = pick(random, &[block_len + 1, block_len.saturating_sub(1), 0]);
    let len = pick(random, &[block_len, block_len, block_len, off]);
    let says = |changed| ["done, same", "done, changed"][usize::from(changed)];
    let outcome = |answer: &str, all: &[u8]| {
        let answer = format!("{}: {answer}", sized(channels.into(), block_len));
        let given = format!("{block_len} bytes to {len}");
        let left = [numbers(all), numbers(&block)].concat();
        (call, answer, given, left)
    };

    let mut changed = 0;
    let (answer, all) = by_rust(len, refuses(channels, &block), |out| {
        oracle::repack(&mut vec![], channels, &block, &mut changed, out)
    });
    let expected = outcome(answer.unwrap_or(says(changed == 1)), &all);
    let (answer, all) = lent(len, |out| binding(channels, &block, out));
    (expected, outcome(&told(answer.map(says)), &all))
}

/// The same samples again, or one of them moved, or others, or of another length.
fn loss(seed: u64) -> Both {
    let random = &mut random(seed);
    let (long, short) = (131_062 + below(random, 3), pick(random, &[0, 1, 2, 300]));
    let len = if below(random, 16) == 0 { long } else { short };
    let before = samples(random, len);
    let mut after = before.clone();
    match below(random, 4) {
        0 => after = samples(random, len),
        1 if len > 0 => after[below(random, len)] = sample(random),
        2 => after.resize(pick(random, &[len + 1, len / 2]), 0),
        _ => {}
    }
    let of = match before.len() == after.len() {
        true if len > 131_063 => "long",
        true => "equal",
        false => "unequal",
    };
    let says = |report: Loss| ["done, same", "done, moved"][usize::from(report.count > 0)];
    let outcome = |answer: &str, report: Option<Loss>| {
        let given = format!("{len} and {} samples, {report:?}", after.len());
        ("loss_report", format!("{of}: {answer}"), given, vec![])
    };

    let (count, first, peak) = plain::loss(&before, &after);
    let first = (first != plain::NONE).then_some(first);
    let report = Loss { count, first, peak };
    let expected = match of {
        "equal" => outcome(says(report), Some(report)),
        _ => outcome(REFUSALS[1], None),
    };
    let answer = loss_report(&before, &after);
    (expected, outcome(&told(answer.map(says)), answer.ok()))
}
