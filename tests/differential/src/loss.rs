//! The loss report: every difference that two samples can have, every place, runs of several contents, and
//! the lengths. The oracle has no such call, so it is held to a plain loop, and to the rule about lengths.

mod places;
mod plain;
mod runs;

use crate::ffi;
use crate::report::Report;
use plain::{loss, Loss, NONE};
use std::fmt::Debug;

/// So many samples a run may have.
const MOST: usize = 131_063;
/// What a call returns that refuses its runs.
const REFUSED: u8 = 2;

pub fn reports(progress: bool) -> Vec<Report> {
    let differences = places::differences(progress);
    let places = places::report(progress);
    let [runs, lengths] = runs::reports(progress);
    hold();
    vec![differences, places, runs, lengths]
}

/// The number that is returned, and the three of the report, each with a neighbour on either side, so that
/// one which is too wide is seen.
#[derive(PartialEq, Debug)]
struct Told {
    number: u8,
    count: [u32; 3],
    first: [u32; 3],
    peak: [u16; 3],
}

/// What stands there before a call, and behind a refused one.
const UNTOLD: Told = Told {
    number: REFUSED,
    count: [0x5a5a_5a5a; 3],
    first: [0x5b5b_5b5b; 3],
    peak: [0x5c5c; 3],
};

fn ours(before: &[i16], after: &[i16]) -> Told {
    let mut told = UNTOLD;
    let (count, first, peak) = (&mut told.count[1], &mut told.first[1], &mut told.peak[1]);
    told.number = ffi::loss(before, after, count, first, peak);
    told
}

/// The rule: two runs of equal length, 0 to 131,063.
fn expected(before: &[i16], after: &[i16]) -> Told {
    let mut told = UNTOLD;
    if before.len() == after.len() && before.len() <= MOST {
        told.number = 0;
        (told.count[1], told.first[1], told.peak[1]) = loss(before, after);
    }
    told
}

/// Runs that are compared one by one. Neither is written to.
fn compare(report: &Report, name: impl Debug, before: &[i16], after: &[i16]) {
    let (old, new) = (before.to_vec(), after.to_vec());
    let (ours, expected) = (ours(before, after), expected(before, after));
    let differ = ours != expected;
    if differ {
        report.print((before.len(), after.len(), name), ours, expected);
    }
    report.count(1, u64::from(differ));
    assert!(
        old == before && new == after,
        "a call wrote to what it reads"
    );
}

/// What the scope and the requests name: of runs that agree there is nothing to tell, and the peak is the
/// true one, of a click from end to end as of any other.
fn hold() {
    let told = |before: &[i16], after: &[i16]| -> Loss {
        let told = ours(before, after);
        assert_eq!(told, expected(before, after));
        assert_eq!(told.number, 0);
        (told.count[1], told.first[1], told.peak[1])
    };
    assert_eq!(told(&[], &[]), (0, NONE, 0));
    assert_eq!(told(&[7, -7], &[7, -7]), (0, NONE, 0));
    assert_eq!(told(&[32_758, 32_767, 9], &[32_758, 32_766, 9]), (1, 1, 1));
    let clicks = [
        (0, i16::MAX, 32_767),
        (i16::MIN, 0, 32_768),
        (-i16::MAX, i16::MAX, 65_534),
        (i16::MIN, i16::MAX, 65_535),
    ];
    for (low, high, peak) in clicks {
        assert_eq!(told(&[9, low], &[9, high]), (1, 1, peak));
        assert_eq!(told(&[9, high], &[9, low]), (1, 1, peak));
    }
}
