//! The blocks of ms/readings.rs, repacked by strict and by lenient reading.

use super::both::{oracle, Repack, ROOM};
use super::lengths::lengths;
use crate::ms::block::ours;
use crate::ms::lengths::CHANNELS;
use crate::ms::readings::{each_block, each_length, head, REFUSED};
use crate::ms::strict::refuses;
use crate::outcome::Outcome;
use crate::report::Report;

/// Compared are both numbers, and the buffer with the room about it.
pub fn reports(progress: bool) -> [Report; 2] {
    let readings = Report::start(progress, "repack_ms readings");
    each_block(|channels, block| repack(&readings, channels, block, block.len()));
    let refusals = Report::start(progress, "repack_ms refusals");
    each_length(|block| {
        for len in lengths(block.len()) {
            for channels in CHANNELS {
                repack(&refusals, channels, block, len);
            }
        }
    });
    [readings, refusals]
}

/// Lenient reading is held to the oracle, and strict reading to the oracle and the rule, as in decoding.
fn repack(report: &Report, channels: u8, block: &[u8], len: usize) {
    let before = block.to_vec();
    let by = |repack: Repack| {
        Outcome::of(len, ROOM, |[_, changed, _], repacked| {
            repack(channels, block, changed, repacked)
        })
    };
    let oracle = by(oracle);
    let input = (channels, block.len(), head(block), len);
    by(ours::repack_lenient).compare(report, ("lenient", input), &oracle);
    let refused = oracle.is_done() && refuses(channels, block);
    let strict = if refused {
        by(|_, _, _, _| REFUSED)
    } else {
        oracle
    };
    by(ours::repack).compare(report, ("strict", input), &strict);
    assert!(block == before, "a call wrote to what it reads");
}
