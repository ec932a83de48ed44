//! The loss report of samples and what MS blocks make of them. Ours is a true call. The Rust has none: there
//! it is a plain loop, inlined.

use crate::ffi;
use crate::ms_block::oracle::{decode, encode};
use crate::plain::{loss, Loss};
use crate::rounds::{round, Row};
use crate::signal::{noise, speech};

/// Of a block of one channel and 1,024 bytes.
const BLOCK: usize = 2041;
/// So many samples are timed together, before and after: those of 64 blocks, which one call takes.
pub const SAMPLES: usize = 64 * BLOCK;

pub struct Content {
    name: &'static str,
    /// Samples a call.
    len: usize,
    /// A run and what became of it, then the next run.
    pairs: Vec<i16>,
}

/// Nearly all samples of speech and of noise differ from what became of them, and of equal ones none. Where
/// the last of a run does alone, ours looks for it longest.
pub fn contents() -> Vec<Content> {
    let (speech, noise) = (speech(1, SAMPLES), noise(1, SAMPLES));
    let mut contents = Vec::new();
    for len in [BLOCK, SAMPLES] {
        contents.push(content("speech", len, &speech, &coded(&speech)));
        contents.push(content("noise", len, &noise, &coded(&noise)));
        contents.push(content("equal", len, &speech, &speech));
        contents.push(content("last", len, &speech, &last_moved(&speech, len)));
    }
    contents
}

fn content(name: &'static str, len: usize, before: &[i16], after: &[i16]) -> Content {
    let runs = before.chunks(len).zip(after.chunks(len));
    let pairs = runs.flat_map(|(before, after)| [before, after].concat());
    let pairs = pairs.collect();
    Content { name, len, pairs }
}

fn coded(samples: &[i16]) -> Vec<i16> {
    let mut after = samples.to_vec();
    let mut states = [(0, 0); 8];
    for run in after.chunks_exact_mut(BLOCK) {
        let mut block = [0; 1024];
        encode(1, run, &mut states, &mut block);
        decode(1, &block, run);
    }
    after
}

fn last_moved(samples: &[i16], len: usize) -> Vec<i16> {
    let mut after = samples.to_vec();
    after.chunks_mut(len).for_each(|run| run[len - 1] ^= 1);
    after
}

pub fn rows(contents: &[Content]) -> Vec<Row<'_>> {
    contents.iter().map(row).collect()
}

fn row(content: &Content) -> Row<'_> {
    let len = content.len;
    let round = round(
        [SAMPLES; 2],
        (&content.pairs, 2 * len),
        // what is written is the report
        1,
        move |pair, (): &mut (), report: &mut [Loss]| {
            let (before, after) = pair.split_at(len);
            let (count, first, peak) = &mut report[0];
            ffi::loss(before, after, count, first, peak)
        },
        move |pair, (): &mut (), report: &mut [Loss]| {
            let (before, after) = pair.split_at(len);
            report[0] = loss(before, after);
            0
        },
    );
    Row::new("loss", content.name, (len, "pairs a call"), None, round)
}
