//! Which samples to ask the encoder about: both sides of each place where the oracle's nibble changes.
//! Between two such places its answer stays the same.
//!
//! No place is missed. The oracle's nibble hangs on the index and on how far the sample is from the
//! predictor, on nothing else. From the lowest predictor the samples reach every distance upwards, from
//! the highest every distance downwards, so a walk over all samples from these two meets every change,
//! and at any other predictor the changes are as far away. `check` holds this to the oracle itself.

use crate::nibble::oracle;
use std::collections::BTreeSet;

/// The distances of one index, in samples from the predictor.
pub struct Places {
    index: u8,
    distances: BTreeSet<i32>,
}

impl Places {
    pub fn of(index: u8) -> Places {
        let mut distances = BTreeSet::new();
        for predictor in [i16::MIN, i16::MAX] {
            for sample in changes(predictor, index) {
                let distance = i32::from(sample) - i32::from(predictor);
                distances.extend([distance - 1, distance]);
            }
        }
        Places { index, distances }
    }

    /// Each sample once: the ends, and both sides of each change. The predictor is one of them, for
    /// the sign changes there.
    pub fn samples(&self, predictor: i16) -> impl Iterator<Item = i16> + '_ {
        let at = move |distance: &i32| i16::try_from(i32::from(predictor) + distance).ok();
        let inside = self.distances.iter().filter_map(at);
        let inside = inside.filter(|&sample| sample != i16::MIN && sample != i16::MAX);
        [i16::MIN, i16::MAX].into_iter().chain(inside)
    }

    /// Walks over all samples, and ends the run at a change beside which a sample is not asked about.
    pub fn check(&self, predictor: i16) {
        let asked: BTreeSet<i16> = self.samples(predictor).collect();
        for sample in changes(predictor, self.index) {
            assert!(
                asked.contains(&(sample - 1)) && asked.contains(&sample),
                "the oracle's nibble changes at {sample}, predictor {predictor}, index {}: not asked",
                self.index
            );
        }
    }
}

/// The samples whose nibble is not that of the sample before.
fn changes(predictor: i16, index: u8) -> impl Iterator<Item = i16> {
    let nibble = move |sample| oracle::encode((sample, predictor, index)).0;
    (i16::MIN + 1..=i16::MAX).filter(move |&sample| nibble(sample) != nibble(sample - 1))
}
