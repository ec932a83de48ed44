//! Runs of several contents, each against itself and against others, and the lengths that are taken and
//! that are not.

use super::{compare, MOST};
use crate::ms::block::oracle::{decode, encode, fitting};
use crate::parallel::each;
use crate::report::Report;
use crate::runs::contents;
use crate::signal::{noise, Random};

pub fn reports(progress: bool) -> [Report; 2] {
    [several(progress), lengths(progress)]
}

fn several(progress: bool) -> Report {
    let report = Report::start(progress, "loss runs");
    let long = [1_000, 2_041, 8_185, 65_535, 65_536, MOST - 1, MOST];
    each((0..=300).chain(long), |len| {
        let seed = len as u64 % 8 + 1;
        let runs = contents(seed, len);
        for (name, before) in &runs {
            for (other, after) in &runs {
                compare(&report, (name, other), before, after);
            }
            compare(&report, (name, "spoilt"), before, &spoilt(before, seed));
            compare(&report, (name, "coded"), before, &coded(before));
        }
        compare(&report, "other noise", &noise(1, len), &noise(2, len));
    });
    report
}

/// With a wrong bit in some samples.
fn spoilt(run: &[i16], seed: u64) -> Vec<i16> {
    let spoil = |(&sample, random): (&i16, u32)| match random >> 24 {
        0 => sample ^ 1 << (random % 16),
        _ => sample,
    };
    run.iter().zip(Random::new(seed)).map(spoil).collect()
}

/// What an MS block makes of it. Of a number of samples that no block has, the last one stays.
fn coded(run: &[i16]) -> Vec<i16> {
    let mut after = run.to_vec();
    let len = run.len().saturating_sub(1) / 2;
    let mut block = vec![0; len + 4];
    let samples = &mut after[..fitting(1, len + 4).min(run.len())];
    encode(1, samples, &mut [(0, 0); 8], &mut block);
    decode(1, &block, samples);
    after
}

/// Pairs of lengths about the longest, about what looks short to whoever counts with 16 bits, and short
/// ones.
fn lengths(progress: bool) -> Report {
    let report = Report::start(progress, "loss lengths");
    let about = [65_536, MOST, 131_072, 65_536 + MOST];
    let about = about.into_iter().flat_map(|len| len - 2..=len + 2);
    let lengths: Vec<usize> = (0..=20).chain(about).chain([262_144]).collect();
    let (before, after) = (noise(1, 262_144), noise(2, 262_144));
    each(lengths.iter(), |&old| {
        for &new in &lengths {
            compare(&report, "noise", &before[..old], &after[..new]);
            compare(&report, "equal", &before[..old], &before[..new]);
        }
    });
    report
}
