//! The calls of the module `metered`, held to the Rust as those at the root are, and their counts of clipped steps
//! to a plain loop. Counts start at 0, at any number, and at the last ones. What is refused leaves them as they
//! were.

use crate::beyond::{self, both_decodings, decode_blocks, encode_blocks, ms_block, told, Both};
use crate::{clips, encode as encode_by_rust, seek, strict};
use audio_codec_algorithms::{decode_adpcm_ima, encode_adpcm_ima, AdpcmImaState};
use calls_rust::{below, index as step_index, lent, pick, plain as numbers, random, sample};
use calls_rust::{samples, signal::Random, Samples};
use sprettuhol::metered::{self, State};
use sprettuhol::{Error, Refusal};
use std::fmt::Debug;

const _: fn() = state::<State>;

fn state<T: Debug + Clone + PartialEq + Default + Send + Sync + 'static>() {}

pub const CALLS: [fn(u64) -> Both; 10] = [
    derived,
    decode,
    encode,
    decode_run,
    encode_run,
    index,
    decode_from,
    encode_ms,
    decode_channels,
    decode_channels_lenient,
];

/// All answers, after whether the step clips.
pub const STEPS: [(&str, &str); 1] = [("clipped | unclipped", "done")];

fn count(random: &mut Random) -> u32 {
    let any = below(random, 1 << 32) as u32;
    pick(random, &[0, 1, any, u32::MAX - 1, u32::MAX])
}

fn start(random: &mut Random) -> clips::State {
    (sample(random), step_index(random), count(random))
}

fn metered((predictor, step_index, clipped): clips::State) -> State {
    State {
        predictor,
        step_index,
        clipped,
    }
}

/// The numbers of a state, the count as the signed number with its bits.
fn three((predictor, step_index, clipped): clips::State) -> Vec<i32> {
    vec![predictor.into(), step_index.into(), clipped as i32]
}

fn of(state: &State) -> clips::State {
    (state.predictor, state.step_index, state.clipped)
}

/// What is derived for states, equal ones and others, the two ways to a first one, and the ways to and from the
/// state without a count.
fn derived(seed: u64) -> Both {
    let random = &mut random(seed);
    let mut any = || {
        let clipped = pick(random, &[0, 1, u32::MAX]);
        (pick(random, &[0, 1, -1]), pick(random, &[0, 1]), clipped)
    };
    let states = [(0, 0, 0), (0, 0, 0), any(), any(), any(), any()];
    let outcome = |equal: [bool; 6], left: Vec<clips::State>| {
        let left = left.into_iter().flat_map(three);
        let left = equal.into_iter().map(i32::from).chain(left).collect();
        (
            "metered::State",
            "any: done".into(),
            format!("{states:?}"),
            left,
        )
    };

    let zeroed = states.map(|(predictor, index, _)| (predictor, index, 0));
    let left = [states, zeroed].concat();
    let expected = outcome(states.map(|state| state == states[5]), left);
    let mut states = states.map(metered);
    (states[0], states[1]) = (State::new(), State::default());
    let equal = states.each_ref().map(|state| *state == states[5]);
    let zeroed = states.clone().map(sprettuhol::AdpcmImaState::from);
    let left = [states, zeroed.map(State::from)].concat();
    let binding = outcome(equal, left.iter().map(of).collect());
    (expected, binding)
}

fn decode(seed: u64) -> Both {
    let random = &mut random(seed);
    let nibble = below(random, 256) as u8;
    let call = (
        "metered::decode_adpcm_ima",
        metered::decode_adpcm_ima as fn(_, &mut _) -> _,
    );
    one_step(call, nibble, start(random), |nibble, state| {
        (nibble, decode_adpcm_ima(nibble, state))
    })
}

fn encode(seed: u64) -> Both {
    let random = &mut random(seed);
    // an encoder clips at samples near the ends
    let any = sample(random);
    let sample = pick(random, &[i16::MIN, i16::MAX, any, any]);
    let call = (
        "metered::encode_adpcm_ima",
        metered::encode_adpcm_ima as fn(_, &mut _) -> _,
    );
    one_step(call, sample, start(random), |sample, state| {
        let nibble = encode_adpcm_ima(sample, state);
        (nibble, nibble)
    })
}

/// The Rust answers the nibble of the step too.
fn one_step<A: Copy + Debug, B: Into<i32>>(
    (call, binding): (&'static str, fn(A, &mut State) -> B),
    input: A,
    start: clips::State,
    rust: impl FnOnce(A, &mut AdpcmImaState) -> (u8, B),
) -> Both {
    let mut expected = start;
    let (nibble, answer) = moved(&mut expected, |state| rust(input, state));
    expected.2 = counted(start, |state| clips::step(nibble, state));
    let clips = counted((start.0, start.1, 0), |state| clips::step(nibble, state));
    let outcome = |answer: B, state| {
        let of = ["unclipped", "clipped"][clips as usize];
        let left = [vec![answer.into()], three(state)].concat();
        (
            call,
            format!("{of}: done"),
            format!("{input:?} {start:?}"),
            left,
        )
    };
    let mut state = metered(start);
    let by_binding = binding(input, &mut state);
    (outcome(answer, expected), outcome(by_binding, of(&state)))
}

/// The Rust moves the predictor and the step index.
fn moved<A>(state: &mut clips::State, rust: impl FnOnce(&mut AdpcmImaState) -> A) -> A {
    let mut two = AdpcmImaState {
        predictor: state.0,
        step_index: state.1,
    };
    let answer = rust(&mut two);
    (state.0, state.1) = (two.predictor, two.step_index);
    answer
}

/// The count that the plain loop comes to.
fn counted(mut state: clips::State, plain: impl FnOnce(&mut clips::State)) -> u32 {
    plain(&mut state);
    state.2
}

/// A call by both, from one state, into a buffer of that length. It is told what the call is of, and what it is
/// given.
fn both<T: Copy + From<u8> + Into<i32>>(
    call: &'static str,
    (of_what, given): (&str, String),
    start: clips::State,
    len: usize,
    expected: impl FnOnce(&mut clips::State, &mut [T]) -> &'static str,
    binding: impl FnOnce(&mut State, &mut [T]) -> Result<(), Refusal>,
) -> Both {
    let outcome = |answer: &str, all: &[T], state| {
        let left = [numbers(all), three(state)].concat();
        (
            call,
            format!("{of_what}: {answer}"),
            format!("{given} {start:?}"),
            left,
        )
    };
    let mut state = start;
    let (answer, all) = lent(len, |out| expected(&mut state, out));
    let expected = outcome(answer, &all, state);
    let mut state = metered(start);
    let (answer, all) = lent(len, |out| binding(&mut state, out));
    let answer = told(answer.map(|()| "done"));
    (expected, outcome(&answer, &all, of(&state)))
}

fn decode_run(seed: u64) -> Both {
    let random = &mut random(seed);
    let (run @ (_, bytes, len), buf) = beyond::run_to_decode(random);
    let (of, refusal) = beyond::run_of(run);
    let rust = |state: &mut clips::State, out: &mut [i16]| {
        refusal.unwrap_or_else(|| {
            let count = counted(*state, |state| clips::decoded(&buf, state));
            moved(state, |state| decode_blocks(&buf, state, out));
            state.2 = count;
            "done"
        })
    };
    let call = "metered::decode_adpcm_ima_ima4_run";
    let given = format!("{bytes} bytes, {len} samples");
    both(
        call,
        (&of, given),
        start(random),
        len,
        rust,
        |state, out| metered::decode_adpcm_ima_ima4_run(&buf, state, out),
    )
}

fn encode_run(seed: u64) -> Both {
    let random = &mut random(seed);
    let run @ (_, len, samples_len) = beyond::run_lengths(random);
    let samples = samples(random, samples_len);
    let (of, refusal) = beyond::run_of(run);
    let rust = |state: &mut clips::State, out: &mut [u8]| {
        refusal.unwrap_or_else(|| {
            let before = *state;
            moved(state, |state| encode_blocks(&samples, state, out));
            state.2 = counted(before, |state| clips::encoded(out, state));
            "done"
        })
    };
    let call = "metered::encode_adpcm_ima_ima4_run";
    let given = format!("{len} bytes, {samples_len} samples");
    both(
        call,
        (&of, given),
        start(random),
        len,
        rust,
        |state, out| metered::encode_adpcm_ima_ima4_run(&samples, state, out),
    )
}

fn index(seed: u64) -> Both {
    let random = &mut random(seed);
    let (of, buf, state, every, len) = seek::to_index(random);
    let rust = |state: &mut clips::State, out: &mut [u8]| {
        seek::refusal(of).unwrap_or_else(|| {
            let count = counted(*state, |state| clips::decoded(&buf, state));
            let index = moved(state, |state| seek::indexed(&buf, every, state));
            out.copy_from_slice(&index);
            state.2 = count;
            "done"
        })
    };
    let call = "metered::index_adpcm_ima_ima4";
    let given = format!("{} bytes by {every} to {len}", buf.len());
    let start = (state.predictor, state.step_index, count(random));
    both(call, (of, given), start, len, rust, |state, out| {
        metered::index_adpcm_ima_ima4(&buf, state, every, out)
    })
}

/// The state of a call that is refused is the one that was there before.
fn decode_from(seed: u64) -> Both {
    let random = &mut random(seed);
    let (of, buf, index, from, len) = seek::to_decode(random);
    let rust = |state: &mut clips::State, out: &mut [i16]| {
        seek::refusal(of).unwrap_or_else(|| {
            *state = decoded_from(&buf, &index, from, out);
            "done"
        })
    };
    let call = "metered::decode_adpcm_ima_ima4_from";
    let given = seek::given(&buf, &index, from);
    both(call, (of, given), start(random), len, rust, |state, out| {
        *state = metered::decode_adpcm_ima_ima4_from(&buf, &index, from, out)?;
        Ok(())
    })
}

/// The count is that from the block on, whatever is decoded before it.
fn decoded_from(buf: &[u8], index: &[u8], from: usize, out: &mut [i16]) -> clips::State {
    let (block, mut state) = seek::start(index, from);
    let asked = seek::decoded(&buf[34 * block..], &mut state).split_off(from - block);
    for ((_, samples), out) in asked.iter().zip(out.chunks_exact_mut(64)) {
        out.copy_from_slice(samples);
    }
    let ([high, low, step_index], _) = asked[0];
    let before = (i16::from_be_bytes([high, low]), step_index, 0);
    let count = counted(before, |state| clips::decoded(&buf[34 * from..], state));
    (state.predictor, state.step_index, count)
}

/// The samples that the ported encoder is given too, with a count for each of its states.
fn encode_ms(seed: u64) -> Both {
    let random = &mut random(seed);
    let given = Samples::new(random);
    let counts: Vec<u32> = (0..given.channels).map(|_| count(random)).collect();
    let by = |encode: EncodeMs| {
        let mut counts = counts.clone();
        let call = "metered::encode_adpcm_ima_ms";
        let mut outcome = given.encoded(call, |samples, states, out| {
            encode(samples, (states, &mut counts), out)
        });
        outcome.3.extend(counts.iter().map(|&count| count as i32));
        outcome
    };
    (by(encode_ms_by_rust), by(encode_ms_by_binding))
}

type EncodeMs = fn(&[i16], (&mut [AdpcmImaState], &mut [u32]), &mut [u8]) -> Result<(), Error>;

fn encode_ms_by_rust(
    samples: &[i16],
    (states, counts): (&mut [AdpcmImaState], &mut [u32]),
    out: &mut [u8],
) -> Result<(), Error> {
    let channels = match states.len() {
        channels @ 1..=8 => channels,
        _ => return Err(Error::InvalidChannels),
    };
    encode_by_rust(samples, states, out)?;
    let mut eight = [0; 8];
    eight[..channels].copy_from_slice(counts);
    clips::block(channels as u8, out, &mut eight);
    counts.copy_from_slice(&eight[..channels]);
    Ok(())
}

fn encode_ms_by_binding(
    samples: &[i16],
    (states, counts): (&mut [AdpcmImaState], &mut [u32]),
    out: &mut [u8],
) -> Result<(), Error> {
    let pairs = states.iter().zip(&*counts);
    let lent = pairs.map(|(state, &count)| (state.predictor, state.step_index, count));
    let mut lent: Vec<State> = lent.map(metered).collect();
    let answer = metered::encode_adpcm_ima_ms(samples, &mut lent, out);
    for ((state, count), next) in states.iter_mut().zip(counts).zip(&lent) {
        (state.predictor, state.step_index, *count) = of(next);
    }
    answer
}

fn decode_channels(seed: u64) -> Both {
    let call = "metered::decode_adpcm_ima_ms_channels";
    both_counts(
        call,
        seed,
        strict::refuses,
        metered::decode_adpcm_ima_ms_channels,
    )
}

fn decode_channels_lenient(seed: u64) -> Both {
    let call = "metered::lenient::decode_adpcm_ima_ms_channels";
    let binding = metered::lenient::decode_adpcm_ima_ms_channels;
    both_counts(call, seed, |_, _| false, binding)
}

type Decode = fn(u8, &[u8], &mut [i16]) -> Result<[u32; 8], Refusal>;

/// As at the root, and the counts of a block that is taken.
fn both_counts(
    call: &'static str,
    seed: u64,
    refuses: fn(u8, &[u8]) -> bool,
    binding: Decode,
) -> Both {
    let mut told = None;
    let (mut expected, mut binding) =
        both_decodings(call, seed, refuses, |channels, block, out| {
            told = Some(binding(channels, block, out)?);
            Ok(())
        });
    let (channels, block, _) = ms_block(&mut random(seed));
    if expected.1.ends_with("done") {
        let mut counts = [0; 8];
        clips::block(channels, &block, &mut counts);
        expected.3.extend(counts.map(|count| count as i32));
    }
    let told = told.into_iter().flatten();
    binding.3.extend(told.map(|count| count as i32));
    (expected, binding)
}
