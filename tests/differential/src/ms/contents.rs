//! MS blocks of every length that is taken, of several contents, from several states. What the oracle
//! encoded is decoded, and so is what nobody encoded.

use super::block::oracle::fitting;
use super::block::{eight, interleaved, ours, States};
use super::both;
use super::lengths::taken;
use crate::outcome::Outcome;
use crate::parallel::each;
use crate::report::Report;
use crate::runs::{self, random, spoilt};

pub fn states() -> [States; 4] {
    [
        [(0, 0); 8],
        eight([(0, 88), (i16::MIN, 1)]),
        eight([(i16::MIN, 255), (i16::MAX, 89)]),
        eight([(-12345, 44), (12345, 200)]),
    ]
}

/// Compared are the number, all that comes out, and the states of all eight channels.
pub fn reports(progress: bool) -> [Report; 3] {
    let encoded = Report::start(progress, "encode_ms blocks");
    let decoded = Report::start(progress, "decode_ms blocks");
    let firsts = Report::start(progress, "ms first samples");
    each(taken().into_iter(), |(channels, block)| {
        let (seed, len) = (block as u64 % 8 + 1, fitting(channels, block));
        for (name, samples) in contents(channels, seed, len) {
            for states in states() {
                let bytes = both::encode(&encoded, name, channels, &samples, states, block);
                both::decode(&decoded, ("encoded", name), channels, &bytes, len);
                let bytes = spoilt(&bytes, seed);
                both::decode(&decoded, ("spoilt", name), channels, &bytes, len);
                first(&firsts, name, channels, &samples, states, block);
            }
        }
        both::decode(&decoded, "random", channels, &random(seed, block), len);
    });
    [encoded, decoded, firsts]
}

/// What ours encoded, ours decodes to samples of which the first, of each channel, is the one that went
/// in.
fn first(report: &Report, name: Name, channels: u8, samples: &[i16], states: States, block: usize) {
    let encoded = Outcome::of(block, states, |states, bytes| {
        ours::encode(channels, samples, states, bytes)
    });
    let decoded = Outcome::of(samples.len(), (), |_, samples| {
        ours::decode_lenient(channels, encoded.buffer(), samples)
    });
    let inputs = (0..usize::from(channels)).map(|channel| (channel, name, states, block));
    report.compare(
        inputs,
        |(channel, ..)| decoded.buffer()[channel],
        |(channel, ..)| samples[channel],
    );
}

/// What is in the first channel, and what is in the second. One channel has a first alone.
pub type Name = (&'static str, &'static str);

/// The samples of so many channels, by each of the choices.
pub fn contents(channels: u8, seed: u64, len: usize) -> Vec<(Name, Vec<i16>)> {
    let frames = len / usize::from(channels);
    let seeds = (seed..).step_by(8).take(channels.into());
    let all: Vec<_> = seeds.map(|seed| runs::contents(seed, frames)).collect();
    let content = |choice: Vec<usize>| {
        let chosen = all.iter().zip(choice);
        let chosen = chosen.map(|(contents, place)| contents[place].clone());
        let (names, samples): (Vec<_>, Vec<_>) = chosen.unzip();
        let second = names.get(1).copied().unwrap_or_default();
        ((names[0], second), interleaved(&samples))
    };
    choices(channels.into()).map(content).collect()
}

/// Which of the four contents each channel has. For two channels that is each in the first with each in the
/// second. For all others it is each in the first, and the next one in the next.
fn choices(channels: usize) -> impl Iterator<Item = Vec<usize>> {
    let number = if channels == 2 { 16 } else { 4 };
    (0..number).map(move |choice| match channels {
        2 => vec![choice / 4, choice % 4],
        _ => (choice..choice + channels).map(|place| place % 4).collect(),
    })
}
