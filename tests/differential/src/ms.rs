//! MS blocks, of one to eight channels. There is no end of them, so what a difference could hang on is
//! gone over one by one: the headers and the states, what the samples are like, the channel number, the
//! buffers' lengths, and whether a channel depends on another. All of it is lenient reading, as the oracle
//! reads; strict reading has runs of its own. What the scope names by number is held at the end.

pub mod block;
mod both;
pub mod contents;
pub mod headers;
mod isolation;
pub mod lengths;
pub mod numbers;
pub mod readings;
pub mod strict;

use crate::report::Report;

pub fn reports(progress: bool) -> Vec<Report> {
    let mut reports = vec![headers::decode(progress), headers::encode(progress)];
    reports.extend(contents::reports(progress));
    reports.extend([lengths::report(progress), isolation::report(progress)]);
    reports.extend(readings::reports(progress));
    numbers::hold();
    reports
}
