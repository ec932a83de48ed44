//! A seek index beside a run of ima4 blocks: it is built, a decoder jumps by it, and it is brought up to date
//! where blocks were replaced. The oracle has none of this, so ours is held to a plain loop over its call for
//! one block. What the scope names is held at the end.

mod both;
pub mod calls;
mod damage;
pub mod lengths;
mod numbers;
pub mod runs;

use crate::report::Report;

pub fn reports(progress: bool) -> Vec<Report> {
    let mut reports = Vec::from(runs::reports(progress));
    reports.extend([damage::report(progress), lengths::report(progress)]);
    numbers::hold();
    reports
}
