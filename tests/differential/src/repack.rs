//! Repacking MS blocks. What a difference could hang on is gone over one by one: the headers, a nibble
//! from every state, what the blocks are like, the channel number, and the buffers' lengths. All of it is
//! lenient reading, as the oracle reads; strict reading has runs of its own. What the scope names is held at
//! the end.

mod both;
mod contents;
mod headers;
mod lengths;
mod nibbles;
mod numbers;
mod readings;

use crate::report::Report;

pub fn reports(progress: bool) -> Vec<Report> {
    let mut reports = vec![headers::report(progress), nibbles::report(progress)];
    reports.extend(contents::reports(progress));
    reports.push(lengths::report(progress));
    reports.extend(readings::reports(progress));
    numbers::hold();
    reports
}
