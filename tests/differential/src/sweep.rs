//! The encoder on all samples from one state, in one call of the proved `sweep_encode`: a call for each
//! sample would make the exhaustive run longer.

use crate::packed::{differ, oracles, sample_at, unpacked, Answers};
use crate::parallel::each;
use crate::report::Report;

mod c {
    extern "C" {
        pub fn sweep_encode(predictor: i16, step_index: u8, answers: *mut u32, len: usize) -> u8;
    }
}

/// What no answer is: a nibble has four bits.
const NONE: u32 = u32::MAX;

pub struct Sweep<'a> {
    report: &'a Report,
    answers: Box<Answers>,
}

impl Sweep<'_> {
    pub fn new(report: &Report) -> Sweep<'_> {
        let answers = Box::new([NONE; 65536]);
        Sweep { report, answers }
    }

    /// Compares all samples from one state, and says how many differ.
    pub fn state(&mut self, predictor: i16, index: u8) -> u64 {
        // so that an answer which is not written is seen
        self.answers.fill(NONE);
        let answers = self.answers.as_mut_slice();
        // SAFETY: the proved function writes these numbers, which nobody else borrows.
        let refusal =
            unsafe { c::sweep_encode(predictor, index, answers.as_mut_ptr(), answers.len()) };
        assert_eq!(refusal, 0, "a buffer for all samples is taken");
        let differ = u64::from(differ(predictor, index, &self.answers));
        if differ > 0 {
            self.print(predictor, index);
        }
        self.report.count(self.answers.len() as u64, differ);
        differ
    }

    fn print(&self, predictor: i16, index: u8) {
        for (k, &ours) in self.answers.iter().enumerate() {
            let sample = sample_at(k);
            let oracle = oracles(sample, predictor, index);
            if ours != oracle {
                let input = (sample, predictor, index);
                self.report.print(input, unpacked(ours), unpacked(oracle));
            }
        }
    }
}

/// A few hundred states, so that every run tries what the exhaustive run is made of.
pub fn some(progress: bool) -> Report {
    let report = Report::start(progress, "sweep_encode");
    let corners = [i16::MIN, -1, 0, i16::MAX]
        .into_iter()
        .flat_map(|predictor| [0, 1, 87, 88, 89, 255].map(|index| (predictor, index)));
    // an odd stride meets every index
    let spread = (0..1 << 24).step_by(55_921).map(|number: u32| {
        let predictor = (number >> 8) as i32 - 32768;
        (predictor as i16, number as u8)
    });
    each(corners.chain(spread), |(predictor, index)| {
        Sweep::new(&report).state(predictor, index);
    });
    report
}
