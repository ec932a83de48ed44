//! Runs of ima4 blocks. There is no end of them, so what a difference could hang on is gone over one by
//! one: the headers and the states, what the samples are like, the buffers' lengths, and where a run is
//! cut.

use crate::report::Report;
use crate::{cuts, headers, lengths, runs};

pub fn reports(progress: bool) -> Vec<Report> {
    let mut reports = vec![headers::decode(progress), headers::encode(progress)];
    reports.extend(runs::reports(progress));
    reports.extend([lengths::report(progress), cuts::report(progress)]);
    reports
}
