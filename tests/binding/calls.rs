//! A caller of audio_codec_algorithms, compiled twice: with the Rust itself (rust/Cargo.toml), and with
//! the proved library in its place (proved/Cargo.toml). First comes what the compiler has to take, then
//! calls at random, with all that they leave in types that are neither crate's, to be compared.

#[path = "../differential/src/signal.rs"]
pub mod signal;

use audio_codec_algorithms::{decode_adpcm_ima, decode_adpcm_ima_ima4, decode_adpcm_ima_ms};
use audio_codec_algorithms::{decode_alaw, decode_ulaw, encode_alaw, encode_ulaw};
use audio_codec_algorithms::{encode_adpcm_ima, encode_adpcm_ima_ima4, encode_adpcm_ima_ms};
use audio_codec_algorithms::{AdpcmImaState, Error};
use signal::{noise, speech, Random};
use std::fmt::Debug;

const _: fn(u8) -> i16 = decode_alaw;
const _: fn(i16) -> u8 = encode_alaw;
const _: fn(u8) -> i16 = decode_ulaw;
const _: fn(i16) -> u8 = encode_ulaw;
const _: fn(u8, &mut AdpcmImaState) -> i16 = decode_adpcm_ima;
const _: fn(i16, &mut AdpcmImaState) -> u8 = encode_adpcm_ima;
const _: fn(&[u8; 34], &mut AdpcmImaState, &mut [i16; 64]) = decode_adpcm_ima_ima4;
const _: fn(&[i16; 64], &mut AdpcmImaState, &mut [u8; 34]) = encode_adpcm_ima_ima4;
const _: fn(&[u8], bool, &mut [i16]) -> Result<(), Error> = decode_adpcm_ima_ms;
const _: fn(&[i16], &mut [AdpcmImaState], &mut [u8]) -> Result<(), Error> = encode_adpcm_ima_ms;
const _: fn() -> AdpcmImaState = AdpcmImaState::new;
const _: [Error; 2] = [Error::InvalidChannels, Error::InvalidBufferSize];
const _: fn() = state::<AdpcmImaState>;
const _: fn() = error::<Error>;

fn state<T: Debug + Clone + PartialEq + Default + Send + Sync + 'static>() {}
fn error<T: Debug + Send + Sync + 'static>() {}

/// The call; how it was answered; what it was given; and all that it answered, wrote or could have
/// written: its buffers, with the room about the one that it fills, and the states with two others.
pub type Outcome = (&'static str, String, String, Vec<i32>);

/// So many kinds of call there are.
pub const KINDS: usize = CALLS.len();

/// One call of a kind, at random.
pub fn call(kind: usize, seed: u64) -> Outcome {
    CALLS[kind](&mut random(seed))
}

/// Of seeds that stand next to each other the numbers go together, so their bits are mixed first.
pub fn random(seed: u64) -> Random {
    let mixed = seed.wrapping_mul(0x9e37_79b9_7f4a_7c15);
    let mixed = (mixed ^ mixed >> 30).wrapping_mul(0xbf58_476d_1ce4_e5b9);
    let mixed = (mixed ^ mixed >> 27).wrapping_mul(0x94d0_49bb_1331_11eb);
    Random::new(mixed ^ mixed >> 31)
}

const CALLS: [fn(&mut Random) -> Outcome; 11] = [
    |random| value("decode_alaw", byte(random), decode_alaw),
    |random| value("encode_alaw", sample(random), encode_alaw),
    |random| value("decode_ulaw", byte(random), decode_ulaw),
    |random| value("encode_ulaw", sample(random), encode_ulaw),
    |random| nibble("decode_adpcm_ima", byte(random), decode_adpcm_ima, random),
    |random| nibble("encode_adpcm_ima", sample(random), encode_adpcm_ima, random),
    derived,
    decode_ima4,
    encode_ima4,
    decode_ms,
    encode_ms,
];

type Name = &'static str;

fn value<A: Copy + Debug, B: Into<i32>>(call: Name, input: A, function: fn(A) -> B) -> Outcome {
    let left = vec![function(input).into()];
    (call, done(), format!("{input:?}"), left)
}

fn nibble<A: Copy + Debug, B: Into<i32>>(
    call: Name,
    input: A,
    function: fn(A, &mut AdpcmImaState) -> B,
    random: &mut Random,
) -> Outcome {
    let mut states = states(random, 3);
    let given = format!("{input:?} {states:?}");
    let answer = vec![function(input, &mut states[1]).into()];
    (call, done(), given, [answer, both(&states)].concat())
}

/// What is derived for states, equal ones and others, and the two ways to a first one.
fn derived(random: &mut Random) -> Outcome {
    let mut states = vec![AdpcmImaState::new(), AdpcmImaState::default()];
    states.resize_with(8, || AdpcmImaState {
        predictor: pick(random, &[0, 1, -1]),
        step_index: pick(random, &[0, 1]),
    });
    let last = states[7].clone();
    let equal = states.iter().map(|state| i32::from(*state == last));
    let left = [equal.collect(), both(&states)].concat();
    ("AdpcmImaState", done(), format!("{states:#?}"), left)
}

/// A block at random, or what the encoder makes of samples from the same state, which is kept then.
fn decode_ima4(random: &mut Random) -> Outcome {
    let mut states = states(random, 3);
    let given = format!("{states:?}");
    let mut block = [0; 34];
    block.fill_with(|| byte(random));
    let content = pick(random, &["random", "encoded"]);
    if content == "encoded" {
        encode_adpcm_ima_ima4(&samples_64(random), &mut states[1].clone(), &mut block);
    }
    let decode = |out: &mut [_]| {
        decode_adpcm_ima_ima4(&block, &mut states[1], out.try_into().unwrap());
    };
    let ((), all) = lent(64, decode);
    let left = [plain(&all), plain(&block), both(&states)].concat();
    let answer = told(content, Ok::<_, Error>(()));
    ("decode_adpcm_ima_ima4", answer, given, left)
}

fn encode_ima4(random: &mut Random) -> Outcome {
    let mut states = states(random, 3);
    let given = format!("{states:?}");
    let samples = samples_64(random);
    let encode = |out: &mut [_]| {
        encode_adpcm_ima_ima4(&samples, &mut states[1], out.try_into().unwrap());
    };
    let ((), all) = lent(34, encode);
    let left = [plain(&all), plain(&samples), both(&states)].concat();
    ("encode_adpcm_ima_ima4", done(), given, left)
}

fn decode_ms(random: &mut Random) -> Outcome {
    Block::new(random).decoded("decode_adpcm_ima_ms", decode_adpcm_ima_ms)
}

/// An MS block of one channel or two, and how many samples there is room for.
pub struct Block {
    pub channels: usize,
    pub bytes: Vec<u8>,
    content: &'static str,
    samples_len: usize,
}

impl Block {
    /// A block at random, or what the encoder makes of samples, if it takes them.
    pub fn new(random: &mut Random) -> Block {
        let channels = pick(random, &[1, 2]);
        let (block_len, samples_len) = lengths(random, channels);
        let mut bytes = ms_bytes(random, channels, block_len);
        let content = pick(random, &["random", "encoded"]);
        if content == "encoded" {
            let (samples, mut states) = (samples(random, samples_len), states(random, channels));
            encode_adpcm_ima_ms(&samples, &mut states, &mut bytes).ok();
        }
        Block {
            channels,
            bytes,
            content,
            samples_len,
        }
    }

    /// What a call that decodes it leaves.
    pub fn decoded<E: Debug>(
        &self,
        call: Name,
        decode: impl FnOnce(&[u8], bool, &mut [i16]) -> Result<(), E>,
    ) -> Outcome {
        let (bytes, samples_len) = (&self.bytes, self.samples_len);
        let decode = |out: &mut [_]| decode(bytes, self.channels == 2, out);
        let (answer, all) = lent(samples_len, decode);
        let of = format!("{} {}", sized(self.channels, bytes.len()), self.content);
        let given = format!("{} bytes, {samples_len} samples", bytes.len());
        let left = [plain(&all), plain(bytes)].concat();
        (call, told(&of, answer), given, left)
    }
}

fn encode_ms(random: &mut Random) -> Outcome {
    Samples::new(random).encoded("encode_adpcm_ima_ms", encode_adpcm_ima_ms)
}

/// Samples for an MS block, the states of its channels with two others, and how many bytes there is room for.
pub struct Samples {
    pub channels: usize,
    samples: Vec<i16>,
    states: Vec<AdpcmImaState>,
    block_len: usize,
}

impl Samples {
    /// Most often one to eight states, and numbers of them that look so to whoever counts with 8 bits.
    pub fn new(random: &mut Random) -> Samples {
        let others = pick(random, &[0, 9, 255, 256, 257, 258]);
        let channels = pick(random, &[1, 2, 3, 4, 5, 6, 7, 8, others, others]);
        let (block_len, samples_len) = lengths(random, channels);
        Samples {
            channels,
            states: states(random, channels + 2),
            samples: samples(random, samples_len),
            block_len,
        }
    }

    /// What a call that encodes them leaves.
    pub fn encoded<E: Debug>(
        &self,
        call: Name,
        encode: impl FnOnce(&[i16], &mut [AdpcmImaState], &mut [u8]) -> Result<(), E>,
    ) -> Outcome {
        let (samples, block_len, mut states) = (&self.samples, self.block_len, self.states.clone());
        let encode = |out: &mut [_]| encode(samples, &mut states[1..=self.channels], out);
        let (answer, all) = lent(block_len, encode);
        let answer = told(&sized(self.channels, block_len), answer);
        let given = format!("{block_len} bytes, {} samples", samples.len());
        let left = [plain(&all), plain(samples), both(&states)].concat();
        (call, answer, given, left)
    }
}

/// What a call answers that refuses nothing.
fn done() -> String {
    told("any", Ok::<_, Error>(()))
}

/// What the call was about, and how it was answered: by done, or by the name of an error. One of the crates
/// has an error that the other has not, so no `match` can have them all.
fn told(of: &str, answer: Result<(), impl Debug>) -> String {
    let answer = answer.map_err(|error| format!("{error:?}"));
    let answer = answer.err().unwrap_or("done".into());
    format!("{of}: {answer}")
}

/// The channel number, and whether the block is a long one.
pub fn sized(channels: usize, block_len: usize) -> String {
    let long = if block_len > 300 { " long" } else { "" };
    format!("{channels}{long}")
}

/// Lends a call a buffer of that length, and hands back all of it with the room about it. There is a
/// pattern in it, so that what is not written is seen too.
pub fn lent<T: From<u8>, A>(len: usize, call: impl FnOnce(&mut [T]) -> A) -> (A, Vec<T>) {
    const ROOM: usize = 64;
    let pattern = |place: usize| T::from((place % 250) as u8 + 1);
    let mut all: Vec<T> = (0..ROOM + len + ROOM).map(pattern).collect();
    (call(&mut all[ROOM..ROOM + len]), all)
}

/// Lengths of an MS block about every boundary of so many channels, the long ones seldom, and of these most often
/// the longest; and numbers of samples, that fit more often than not. Of a number of channels that no block has
/// the low three bits count.
pub fn lengths(random: &mut Random, channels: usize) -> (usize, usize) {
    let channels = channels.wrapping_sub(1) % 8 + 1;
    let group = 4 * channels;
    let whole = if channels == 1 { 1 } else { group };
    let longest = 65_535 / whole * whole;
    let about = 65_527 + below(random, 10);
    let long = pick(random, &[longest, longest, longest, longest + whole, about]);
    let beside = pick(random, &[group - 1, group + 1, group + 4, 16, 24]);
    let short = pick(random, &[0, group, group, 2 * group, 3 * group, 300, beside, beside]);
    let block = if below(random, 16) == 0 { long } else { short };
    let other = pick(random, &[channels - 1, channels + 1]);
    let channels = if below(random, 6) == 0 { other } else { channels };
    let fitting = (2 * block).saturating_sub(7 * channels);
    let fewer = fitting.saturating_sub(pick(random, &[1, 2, fitting]));
    let more = fitting + pick(random, &[1, 2, 16, 65_536]);
    let samples = pick(random, &[fitting, fitting, fitting, fitting, fewer, more]);
    (block, samples)
}

/// At full scale, or as speech is, which takes long to make and so comes again and again.
pub fn samples(random: &mut Random, len: usize) -> Vec<i16> {
    let seed = below(random, 1 << 20) as u64;
    if pick(random, &[true, false]) {
        return noise(seed, len);
    }
    let speech = speech(seed, len.min(2_048));
    speech.into_iter().cycle().take(len).collect()
}

fn samples_64(random: &mut Random) -> [i16; 64] {
    samples(random, 64).try_into().unwrap()
}

fn states(random: &mut Random, len: usize) -> Vec<AdpcmImaState> {
    let indices = indices(random, len);
    let state = |step_index| AdpcmImaState {
        predictor: sample(random),
        step_index,
    };
    indices.into_iter().map(state).collect()
}

/// Every number, and those of the step table more often.
pub fn index(random: &mut Random) -> u8 {
    indices(random, 1)[0]
}

/// The same of several channels. Every second time all are of the step table.
pub fn indices(random: &mut Random, len: usize) -> Vec<u8> {
    let most = pick(random, &[89, 256]);
    (0..len).map(|_| below(random, most) as u8).collect()
}

/// Bytes at random, with such an index in the header of each channel.
pub fn ms_bytes(random: &mut Random, channels: usize, len: usize) -> Vec<u8> {
    let mut bytes = bytes(random, len);
    let headers = bytes.chunks_exact_mut(4);
    for (header, index) in headers.zip(indices(random, channels)) {
        header[2] = index;
    }
    bytes
}

pub fn bytes(random: &mut Random, len: usize) -> Vec<u8> {
    (0..len).map(|_| byte(random)).collect()
}

fn byte(random: &mut Random) -> u8 {
    below(random, 256) as u8
}

pub fn sample(random: &mut Random) -> i16 {
    below(random, 65_536) as u16 as i16
}

pub fn pick<T: Copy>(random: &mut Random, choices: &[T]) -> T {
    choices[below(random, choices.len())]
}

pub fn below(random: &mut Random, most: usize) -> usize {
    // by the upper bits, for the lower ones have more of an order
    (u64::from(random.next().unwrap()) * most as u64 >> 32) as usize
}

pub fn plain<T: Copy + Into<i32>>(values: &[T]) -> Vec<i32> {
    values.iter().map(|&value| value.into()).collect()
}

/// Both numbers of each state, and there is no third.
fn both(states: &[AdpcmImaState]) -> Vec<i32> {
    let numbers = |state: &AdpcmImaState| {
        let &AdpcmImaState {
            predictor,
            step_index,
        } = state;
        [predictor.into(), step_index.into()]
    };
    states.iter().flat_map(numbers).collect()
}
