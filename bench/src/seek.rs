//! A seek index beside runs of ima4 blocks, in nanoseconds a call. Ours are true calls. The Rust has no index: to
//! have the last block of a run it decodes all of them, one after the other into the same room. That says what an
//! index saves, but not how fast ours is, so there are rows besides in which the Rust is a plain loop, inlined,
//! that keeps the states and jumps by them.

use crate::blocks::{self, oracle, BYTES, MOST, SAMPLES};
use crate::rounds::{round, Row};
use crate::seek_calls::{ours, plain};
use crate::signal::speech;

/// So many runs of speech are timed together.
pub const RUNS: usize = 16;
/// A run starts so many blocks behind the one before it, so that no two have the same last block.
const APART: usize = 192;
const DECODED: &str = "blocks, which the Rust decodes";
const INDEXED: &str = "blocks, which both index";

/// Runs of so many blocks, with a state kept before each `every`th.
pub struct Content {
    name: &'static str,
    every: u8,
    blocks: usize,
    runs: Vec<Run>,
}

struct Run {
    bytes: Vec<u8>,
    record: Vec<u8>,
}

/// In the last two, the last block is as far behind a kept state.
pub fn contents() -> [Content; 4] {
    let samples = speech(1, (RUNS * APART + MOST) * SAMPLES);
    let mut bytes = vec![0; samples.len() / SAMPLES * BYTES];
    oracle::encode(&samples, &mut (0, 0), &mut bytes);
    [
        content("1", 1, MOST, &bytes),
        content("8", 8, MOST, &bytes),
        content("64", 64, MOST, &bytes),
        content("64", 64, 64, &bytes),
    ]
}

fn content(name: &'static str, every: u8, blocks: usize, bytes: &[u8]) -> Content {
    let runs = bytes.windows(blocks * BYTES).step_by(APART * BYTES);
    let run = |bytes: &[u8]| {
        let mut record = vec![0; plain::record_len(blocks, every)];
        plain::index(bytes, every, &mut (0, 0), &mut record);
        let bytes = bytes.to_vec();
        Run { bytes, record }
    };
    Content {
        name,
        every,
        blocks,
        runs: runs.take(RUNS).map(run).collect(),
    }
}

/// How the last block is had: by decoding all of a run, and by jumping.
pub fn decoded(contents: &[Content; 4]) -> Vec<Row<'_>> {
    let mut rows = vec![whole(&contents[0])];
    rows.extend(contents.iter().map(jump_against_all));
    rows
}

/// An index that is built, brought up to date, and jumped by.
pub fn indexed(contents: &[Content; 4]) -> Vec<Row<'_>> {
    let [one, _, many, _] = contents;
    let mut rows = vec![index(one), index(many), reindex(one)];
    rows.extend(contents.iter().map(jump_against_index));
    rows
}

fn whole(content: &Content) -> Row<'_> {
    let blocks = content.blocks;
    let mut row = content.row(
        "decode_ima4",
        (DECODED, [blocks; 2]),
        blocks * SAMPLES,
        |run, samples| blocks::ours::decode(&run.bytes, &mut (0, 0), samples),
        |run, samples| oracle::decode(&run.bytes, &mut (0, 0), samples),
    );
    row.content = "-";
    row
}

fn jump_against_all(content: &Content) -> Row<'_> {
    content.jump((DECODED, content.blocks), |run, samples| {
        let mut state = (0, 0);
        for block in run.bytes.chunks_exact(BYTES) {
            oracle::decode(block, &mut state, samples);
        }
        0
    })
}

fn jump_against_index(content: &Content) -> Row<'_> {
    let from = content.blocks - 1;
    content.jump((INDEXED, content.near()), move |run, samples| {
        plain::decode(&run.bytes, &run.record, from, &mut (0, 0), samples)
    })
}

fn index(content: &Content) -> Row<'_> {
    let (blocks, every) = (content.blocks, content.every);
    content.row(
        "ima4_index",
        (INDEXED, [blocks; 2]),
        plain::record_len(blocks, every),
        move |run, record| ours::index(&run.bytes, every, &mut (0, 0), record),
        move |run, record| plain::index(&run.bytes, every, &mut (0, 0), record),
    )
}

/// From the first block on: the head and the first state are lent, and all others are written.
fn reindex(content: &Content) -> Row<'_> {
    let (blocks, every) = (content.blocks, content.every);
    let lend = |run: &Run, record: &mut [u8]| record[..7].copy_from_slice(&run.record[..7]);
    content.row(
        "ima4_reindex",
        (INDEXED, [blocks; 2]),
        plain::record_len(blocks, every),
        move |run, record| {
            lend(run, record);
            ours::reindex(&run.bytes, 0, record)
        },
        move |run, record| {
            lend(run, record);
            plain::reindex(&run.bytes, 0, record)
        },
    )
}

impl Content {
    /// Ours goes by the index to the last block. The Rust decodes so many blocks for it.
    fn jump<'a>(
        &'a self,
        (unit, blocks): (&'static str, usize),
        rust: impl Fn(&Run, &mut [i16]) -> u8 + 'a,
    ) -> Row<'a> {
        let from = self.blocks - 1;
        self.row(
            "decode_ima4_from",
            (unit, [self.near(), blocks]),
            SAMPLES,
            move |run, samples| ours::decode(&run.bytes, &run.record, from, &mut (0, 0), samples),
            rust,
        )
    }

    /// The blocks from the last kept state on.
    fn near(&self) -> usize {
        (self.blocks - 1) % usize::from(self.every) + 1
    }

    /// A call gives `to` numbers, for which so many blocks are decoded, by ours and by the Rust.
    fn row<'a, B: Clone + Default + PartialEq + 'a>(
        &'a self,
        call: &'static str,
        (unit, blocks): (&'static str, [usize; 2]),
        to: usize,
        ours: impl Fn(&Run, &mut [B]) -> u8 + 'a,
        rust: impl Fn(&Run, &mut [B]) -> u8 + 'a,
    ) -> Row<'a> {
        let samples = blocks.map(|blocks| blocks * SAMPLES);
        let mut round = round(
            samples.map(|samples| RUNS * samples),
            (&self.runs[..], 1),
            to,
            move |run, (): &mut (), out| ours(&run[0], out),
            move |run, (): &mut (), out| rust(&run[0], out),
        );
        let [of_ours, of_rust] = samples.map(|samples| samples as f64);
        let round = move || {
            let (ours, rust) = round();
            (of_ours * ours, of_rust * rust)
        };
        Row::new(call, self.name, (self.blocks, unit), None, round)
    }
}
