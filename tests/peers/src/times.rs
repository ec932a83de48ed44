//! How long the peers take, and how long we do.

use crate::codec::{Codec, Coded, CODECS};
use crate::ours;
use crate::peer::{bytes_of, Peer, Way};
use crate::signal::speech;
use std::time::Instant;

const RUNS: usize = 5;
const LONG: usize = 8_000_000;
const SHORT: usize = LONG / 8;

pub fn print(ours: &Peer, peers: &[Peer]) {
    println!(
        "Nanoseconds a sample, of {LONG} speech-like ones of one channel, the best of {RUNS} runs."
    );
    println!("Of a command, on one thread, what each sample behind the first {SHORT} adds, the reading and");
    println!("writing of files included, and of ours the same. Of a library its calls in memory, libsndfile's");
    println!("with the file's headers, and of ours the plain calls.");
    println!();
    println!("| peer | codec | direction | what is timed | peer | ours |");
    println!("|---|---|---|---|---:|---:|");
    let samples = speech(1, LONG);
    for peer in peers {
        if peer.program.is_empty() {
            println!("| {} | | | not installed | | |", peer.name);
            continue;
        }
        let mono = |codec: &Codec| peer.has(*codec) && codec.channels() == 1;
        let codecs = CODECS.into_iter().filter(mono);
        for (codec, way) in codecs.flat_map(|codec| [(codec, Way::Decode), (codec, Way::Encode)]) {
            row(ours, peer, codec, way, &samples);
        }
    }
}

fn row(ours: &Peer, peer: &Peer, codec: Codec, way: Way, samples: &[i16]) {
    let (form, [theirs, ours]) = match peer.is_library() {
        true => ("calls in memory", calls(peer, codec, way, samples)),
        false => (
            "file to file",
            [peer, ours].map(|peer| slope(peer, codec, way, samples)),
        ),
    };
    let way = format!("{way:?}").to_lowercase();
    let asked = [codec.name(), &way, form].join(" | ");
    println!("| {} | {asked} | {theirs:.2} | {ours:.2} |", peer.name);
}

/// What each further sample adds, so that the start of a program counts for nothing.
fn slope(peer: &Peer, codec: Codec, way: Way, samples: &[i16]) -> f64 {
    let best = |samples: &[i16]| {
        give(peer, codec, way, samples);
        let runs = (0..RUNS).map(|_| peer.run(way, codec, codec.block(), 1));
        runs.fold(f64::INFINITY, f64::min)
    };
    (best(samples) - best(&samples[..SHORT])) / (LONG - SHORT) as f64
}

fn give(peer: &Peer, codec: Codec, way: Way, samples: &[i16]) {
    match way {
        Way::Decode => peer.put_coded(codec, &ours::encode(codec, samples, codec.block())),
        Way::Encode => peer.put(&bytes_of(samples)),
    }
}

fn calls(peer: &Peer, codec: Codec, way: Way, samples: &[i16]) -> [f64; 2] {
    give(peer, codec, way, samples);
    let theirs = peer.run(way, codec, codec.block(), RUNS);
    let mut samples = samples.to_vec();
    let mut coded = ours::encode(codec, &samples, codec.block());
    let runs = (0..RUNS).map(|_| ours_once(codec, way, &mut samples, &mut coded));
    let ours = runs.fold(f64::INFINITY, f64::min);
    [theirs, ours].map(|took| took / LONG as f64)
}

fn ours_once(codec: Codec, way: Way, samples: &mut [i16], coded: &mut Coded) -> f64 {
    let began = Instant::now();
    match way {
        Way::Decode => ours::decode_into(codec, coded, samples),
        Way::Encode => ours::encode_into(codec, samples, coded),
    }
    began.elapsed().as_nanos() as f64
}
