//! The encoder's whole domain, all samples from all states: 2^40 inputs, which take long. So they go by
//! chunks, on all cores, and a ledger keeps what is done.

use crate::ledger::Ledger;
use crate::parallel::{each, threads};
use crate::progress::Progress;
use crate::report::Report;
use crate::sweep::Sweep;
use std::thread;
use std::time::{Duration, Instant};

/// A chunk has every 4,096th predictor, with all indices and all samples, so that the first one already
/// goes over the whole range of states.
const CHUNKS: u32 = 4096;
const INPUTS: u64 = 1 << 40;

/// Does what no earlier run has done, but no more than `most` chunks.
pub fn encode(most: usize) -> Report {
    let ledger = Ledger::open(CHUNKS);
    let todo = ledger.todo();
    let before = (u64::from(CHUNKS) - todo.len() as u64) * (INPUTS / u64::from(CHUNKS));
    let report = Report::resume("exhaustive encode", before, ledger.differ());
    println!(
        "encode_adpcm_ima on all inputs: earlier runs did {before} of {INPUTS}, {} differ",
        report.differ()
    );

    ledger.save();
    thread::scope(|scope| {
        let todo = todo.into_iter().take(most);
        let work = scope.spawn(|| each(todo, |n| ledger.add(n, chunk(n, &report))));
        let mut progress = Progress::new(before, INPUTS);
        watch(&ledger, || {
            progress.show(report.compared());
            work.is_finished()
        });
        progress.end();
    });
    ledger.save();

    println!(
        "encode_adpcm_ima: {} of {INPUTS} inputs compared, {} differ, {:.0} s of running, {} threads",
        report.compared(),
        report.differ(),
        ledger.seconds(),
        threads()
    );
    report
}

/// Compares a chunk, and says how many differ.
fn chunk(n: u32, report: &Report) -> u64 {
    let mut sweep = Sweep::new(report);
    let all = i16::MIN..=i16::MAX;
    let mut differ = 0;
    for predictor in all.skip(n as usize).step_by(CHUNKS as usize) {
        for index in 0..=u8::MAX {
            differ += sweep.state(predictor, index);
        }
    }
    differ
}

/// Saves the ledger now and then, until the work is finished.
fn watch(ledger: &Ledger, mut finished: impl FnMut() -> bool) {
    let mut saved = Instant::now();
    while !finished() {
        thread::sleep(Duration::from_millis(100));
        if saved.elapsed() > Duration::from_secs(10) {
            ledger.save();
            saved = Instant::now();
        }
    }
}
