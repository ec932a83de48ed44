//! Every difference that two samples can have, and every place in a run at which they can differ.

use super::{compare, expected, ours, MOST};
use crate::parallel::each;
use crate::report::Report;
use crate::signal::noise;

/// All samples against some, the ends among them, so that there is every difference from -65,535 to 65,535.
pub fn differences(progress: bool) -> Report {
    let report = Report::start(progress, "loss differences");
    let ends = [i16::MIN, i16::MIN + 1, i16::MAX - 1, i16::MAX];
    let others = [-16384, -256, -2, -1, 0, 1, 2, 255, 16384];
    each(ends.into_iter().chain(others), |other| {
        let pairs = (i16::MIN..=i16::MAX).flat_map(|sample| [(sample, other), (other, sample)]);
        let ours = |(before, after)| ours(&[before], &[after]);
        report.compare(pairs, ours, |(before, after)| expected(&[before], &[after]));
    });
    report
}

/// How far two runs are apart at a place: little, and about what 16 bits hold, with a sign and without.
const APART: [u16; 7] = [1, 2, 300, 32_767, 32_768, 65_534, 65_535];

/// Runs that differ in one place, all places of short ones and some of longest ones, and short ones that
/// differ in two. The code goes by stretches of 128 places.
pub fn report(progress: bool) -> Report {
    let report = Report::start(progress, "loss places");
    each(1..=300, |len| {
        let run = noise(len as u64, len);
        for place in 0..len {
            one(&report, &run, place);
        }
    });
    let about_stretches = (127..=131).chain(255..=259).chain([300]);
    each((2..=70).chain(about_stretches), |len| {
        let run = noise(len as u64, len);
        for second in 1..len {
            two(&report, &run, second);
        }
    });
    let longest = noise(1, MOST);
    let ends = [0, 1, 130_943, 130_944, 131_061, 131_062];
    let between = [127, 128, 255, 256, 65_535, 65_536];
    each(ends.into_iter().chain(between), |place| {
        one(&report, &longest, place);
    });
    report
}

/// One place differs.
fn one(report: &Report, run: &[i16], place: usize) {
    for apart in APART {
        both_ways(report, run, &[(place, apart)]);
    }
}

/// That place differs, and one before it, every one in turn; either has the larger difference.
fn two(report: &Report, run: &[i16], second: usize) {
    for first in 0..second {
        both_ways(report, run, &[(first, 900), (second, 40_000)]);
        both_ways(report, run, &[(first, 40_000), (second, 900)]);
    }
}

/// The run twice, so far apart at those places and nowhere else: the first against the second, and the
/// second against the first.
fn both_ways(report: &Report, run: &[i16], places: &[(usize, u16)]) {
    let (mut low, mut high) = (run.to_vec(), run.to_vec());
    for &(place, apart) in places {
        let lower = -i32::from(apart.div_ceil(2));
        low[place] = lower as i16;
        high[place] = (lower + i32::from(apart)) as i16;
    }
    compare(report, places, &low, &high);
    compare(report, places, &high, &low);
}
