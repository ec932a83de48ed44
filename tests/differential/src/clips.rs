//! How many steps have clipped. The oracle does not count them, so here ours is held to a plain loop over the
//! nibbles, and beside that to the oracle as everywhere: all three numbers of a state are compared.

mod expected;
mod ms;
mod nibbles;
mod ours;
pub mod plain;
mod runs;
mod seek;

use crate::report::Report;

/// The counts to start from: none, any, and the last two, behind which it stops.
const COUNTS: [u32; 4] = [0, 12_345, u32::MAX - 1, u32::MAX];

pub fn reports(progress: bool) -> Vec<Report> {
    let mut reports = Vec::from(nibbles::decode(progress));
    reports.extend(nibbles::encode(progress));
    reports.extend(runs::reports(progress));
    reports.extend(seek::reports(progress));
    reports.extend(ms::reports(progress));
    reports
}
