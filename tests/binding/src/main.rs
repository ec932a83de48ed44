//! Makes the same calls at random with audio_codec_algorithms and with the proved library in its place,
//! from one source that is compiled with each (../calls.rs), and compares all that they leave. The calls
//! that the binding adds are held to the Rust too (beyond.rs, seek.rs), and the counts of clipped steps to a plain
//! loop (metered.rs). Any difference fails the run, and so does an answer that never came, or was not due.

mod beyond;
#[path = "../../differential/src/clips/plain.rs"]
mod clips;
mod metered;
#[path = "../../differential/src/ms/oracle.rs"]
mod oracle;
#[path = "../../differential/src/loss/plain.rs"]
mod plain;
mod seek;
#[path = "../../differential/src/ms/strict.rs"]
mod strict;

use audio_codec_algorithms::AdpcmImaState;
use calls_rust::{random, Block, Outcome, Samples, KINDS};
use sprettuhol::Error;
use std::collections::{BTreeMap, BTreeSet};
use std::process::ExitCode;

/// Of each call one for each seed from 1 to this.
const SEEDS: u64 = 6_000;
/// So many differences of a call are printed. All are counted.
const PRINTED: u64 = 3;

/// Each call; and all the answers that have to come, each after what it has to come for.
const ANSWERS: [(&str, Answers); CALLS] = [
    ("decode_alaw", &[("any", DONE)]),
    ("encode_alaw", &[("any", DONE)]),
    ("decode_ulaw", &[("any", DONE)]),
    ("encode_ulaw", &[("any", DONE)]),
    ("decode_adpcm_ima", &[("any", DONE)]),
    ("encode_adpcm_ima", &[("any", DONE)]),
    ("AdpcmImaState", &[("any", DONE)]),
    ("decode_adpcm_ima_ima4", &[("random | encoded", DONE)]),
    ("encode_adpcm_ima_ima4", &[("any", DONE)]),
    (
        "decode_adpcm_ima_ms",
        &[(BLOCKS, DONE), (BLOCKS, SIZE), (BLOCKS, "InvalidStepIndex")],
    ),
    ("encode_adpcm_ima_ms", ENCODINGS),
    ("decode_adpcm_ima_ima4_run", &beyond::RUNS),
    ("encode_adpcm_ima_ima4_run", &beyond::RUNS),
    (
        "lenient::decode_adpcm_ima_ms",
        &[(BLOCKS, DONE), (BLOCKS, SIZE)],
    ),
    ("decode_adpcm_ima_ms_channels", &beyond::DECODINGS),
    (
        "lenient::decode_adpcm_ima_ms_channels",
        all_but_last(&beyond::DECODINGS),
    ),
    ("ms_samples", &beyond::COUNTS),
    ("repack_adpcm_ima_ms", &beyond::REPACKINGS),
    (
        "lenient::repack_adpcm_ima_ms",
        all_but_last(&beyond::REPACKINGS),
    ),
    ("loss_report", &beyond::LOSSES),
    ("index_adpcm_ima_ima4", &seek::INDEXED),
    ("reindex_adpcm_ima_ima4", &seek::REINDEXED),
    ("decode_adpcm_ima_ima4_from", &seek::DECODED),
    ("metered::State", &[("any", DONE)]),
    ("metered::decode_adpcm_ima", &metered::STEPS),
    ("metered::encode_adpcm_ima", &metered::STEPS),
    ("metered::decode_adpcm_ima_ima4_run", &beyond::RUNS),
    ("metered::encode_adpcm_ima_ima4_run", &beyond::RUNS),
    ("metered::index_adpcm_ima_ima4", &seek::INDEXED),
    ("metered::decode_adpcm_ima_ima4_from", &seek::DECODED),
    ("metered::encode_adpcm_ima_ms", ENCODINGS),
    ("metered::decode_adpcm_ima_ms_channels", &beyond::DECODINGS),
    (
        "metered::lenient::decode_adpcm_ima_ms_channels",
        all_but_last(&beyond::DECODINGS),
    ),
];
const CALLS: usize = KINDS + beyond::CALLS.len() + seek::CALLS.len() + metered::CALLS.len();
type Answers = &'static [(&'static str, &'static str)];
const DONE: &str = "done";
const SIZE: &str = "InvalidBufferSize";
const CHANNELS: &str = "InvalidChannels";
/// Channel numbers, of short blocks and of long ones.
const TAKEN: &str = "1 | 1 long | 2 | 2 long | 3 | 3 long | 4 | 4 long | \
    5 | 5 long | 6 | 6 long | 7 | 7 long | 8 | 8 long";
const BLOCKS: &str = "1 random | 1 long random | 2 random | 2 long random | \
    1 encoded | 1 long encoded | 2 encoded | 2 long encoded";
const OTHERS: &str = "0 | 0 long | 9 | 9 long | 255 | 255 long | 256 | 256 long | \
    257 | 257 long | 258 | 258 long";

const ENCODINGS: Answers = &[(TAKEN, DONE), (TAKEN, SIZE), (OTHERS, CHANNELS)];

const fn all_but_last(answers: Answers) -> Answers {
    answers.split_at(answers.len() - 1).0
}

/// How often there was each answer to a call, and how often the two sides differed.
#[derive(Default)]
struct Tally {
    answers: BTreeMap<(&'static str, String), u64>,
    differ: u64,
}

fn main() -> ExitCode {
    println!("calls at random, each with the seeds 1 to {SEEDS}");
    let twice = |kind, seed| (expected(kind, seed), calls_proved::call(kind, seed));
    let tallies = (0..KINDS).map(|kind| tally(|seed| twice(kind, seed)));
    let tallies = tallies.chain(beyond::CALLS.map(tally));
    let tallies = tallies.chain(seek::CALLS.map(tally));
    let tallies = tallies.chain(metered::CALLS.map(tally));
    // all of them are gone through, so that a call which differs hides no other
    let held = tallies.zip(ANSWERS).filter(holds).count();
    println!("{held} of {} calls hold", ANSWERS.len());
    if one_line() && held == ANSWERS.len() {
        return ExitCode::SUCCESS;
    }
    ExitCode::FAILURE
}

/// The binding is to do what the Rust does, but in two cases. Where the Rust decodes an MS block with an index
/// above 88 in a header, the binding is to refuse it, and to leave the samples as they were. Where the Rust
/// refuses three to eight states, the binding is to encode each channel as the Rust encodes it alone.
fn expected(kind: usize, seed: u64) -> Outcome {
    let rust = calls_rust::call(kind, seed);
    match rust.0 {
        "decode_adpcm_ima_ms" if rust.1.ends_with(DONE) => {
            let block = Block::new(&mut random(seed));
            match strict::refuses(block.channels as u8, &block.bytes) {
                true => block.decoded(rust.0, |_, _, _| Err(Error::InvalidStepIndex)),
                false => rust,
            }
        }
        "encode_adpcm_ima_ms" if rust.1.ends_with(CHANNELS) => {
            let samples = Samples::new(&mut random(seed));
            match samples.channels {
                3..=8 => samples.encoded(rust.0, encode),
                _ => rust,
            }
        }
        _ => rust,
    }
}

/// By the oracle, of up to eight channels.
fn encode(samples: &[i16], states: &mut [AdpcmImaState], out: &mut [u8]) -> Result<(), Error> {
    let mut lent = [(0, 0); 8];
    for (lent, state) in lent.iter_mut().zip(&*states) {
        *lent = (state.predictor, state.step_index);
    }
    let number = oracle::encode(states.len() as u8, samples, &mut lent, out);
    for (state, next) in states.iter_mut().zip(lent) {
        (state.predictor, state.step_index) = next;
    }
    match number {
        0 => Ok(()),
        _ => Err(Error::InvalidBufferSize),
    }
}

/// What is expected and what the binding did, for every seed.
fn tally(both: impl Fn(u64) -> (Outcome, Outcome)) -> Tally {
    let mut tally = Tally::default();
    for seed in 1..=SEEDS {
        let (expected, binding) = both(seed);
        if expected != binding {
            tally.differ += 1;
            if tally.differ <= PRINTED {
                show(seed, &expected, &binding);
            }
        }
        let answer = (expected.0, expected.1);
        *tally.answers.entry(answer).or_default() += 1;
    }
    tally
}

/// Of the numbers that were left, where the first differs.
fn show(seed: u64, expected: &Outcome, binding: &Outcome) {
    let mut pairs = expected.3.iter().zip(&binding.3);
    let place = pairs.position(|(expected, binding)| expected != binding);
    for (side, (call, answer, given, left)) in [("expected", expected), ("binding", binding)] {
        let number = place.map(|place| (place, left[place]));
        println!("seed {seed}, {side}: {call} of {given}: {answer}, (place, number) {number:?}");
    }
}

fn holds((tally, (call, answers)): &(Tally, (&'static str, Answers))) -> bool {
    let Tally {
        answers: came,
        differ,
    } = tally;
    let done = came.iter().filter(|((_, answer), _)| answer.contains(DONE));
    let accepted: u64 = done.map(|(_, count)| count).sum();
    let compared: u64 = came.values().sum();
    let refused = compared - accepted;
    println!(
        "{call:<47}{compared} compared: {accepted} accepted, {refused} refused; {differ} differ"
    );
    let came: BTreeSet<_> = came.keys().cloned().collect();
    let each = |&(all, answer): &(&'static str, &'static str)| {
        let all = all.split(" | ");
        all.map(move |of| (*call, format!("{of}: {answer}")))
    };
    let due: BTreeSet<_> = answers.iter().flat_map(each).collect();
    for answer in came.symmetric_difference(&due) {
        println!("    {answer:?} never came, or was not due");
    }
    *differ == 0 && came == due
}

/// Of the manifests by which calls.rs is compiled twice, the package's name differs, and one line.
fn one_line() -> bool {
    let rust = include_str!("../rust/Cargo.toml");
    let proved = include_str!("../proved/Cargo.toml");
    let pairs = rust.lines().zip(proved.lines());
    let changed: Vec<_> = pairs.filter(|(rust, proved)| rust != proved).collect();
    let keys = changed.iter().map(|(line, _)| line.split(" = ").next());
    let held = rust.lines().count() == proved.lines().count()
        && keys.eq(["name", "audio-codec-algorithms"].map(Some));
    for (from, to) in changed {
        println!("{from} became {to}");
    }
    held
}
