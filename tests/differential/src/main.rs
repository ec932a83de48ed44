//! Compares the proved library with the oracle, call by call. Any difference, or a call of which
//! nothing was compared, fails the run.
//!
//! With the word `exhaustive` it compares the whole domain of each call, for as long as that takes,
//! and says where it is. It can be stopped at any moment, and goes on from there when it is run again.
//! A number after the word has it do no more than so many chunks of the long part, to try it.
//!
//! With the word `sampled` it compares a part of the predictors where it would compare all of them.

mod adpcm_ima;
mod blocks;
mod calls;
mod clips;
mod cuts;
mod domain;
mod exhaustive;
#[path = "../../../bindings/rust/src/ffi.rs"]
mod ffi;
mod g711;
mod headers;
mod ima4;
mod ledger;
mod lengths;
mod lent;
mod loss;
mod ms;
mod nibble;
mod outcome;
mod packed;
mod parallel;
mod places;
mod progress;
mod repack;
mod report;
mod runs;
mod seek;
mod signal;
mod sweep;

use report::Report;
use std::process::ExitCode;

fn main() -> ExitCode {
    let words: Vec<String> = std::env::args().skip(1).collect();
    let chunks = match words.iter().map(String::as_str).collect::<Vec<_>>()[..] {
        [] => Ok(None),
        ["sampled"] => {
            domain::sample();
            Ok(None)
        }
        ["exhaustive"] => Ok(Some(usize::MAX)),
        ["exhaustive", chunks] => chunks.parse().map(Some).map_err(|_| ()),
        _ => Err(()),
    };
    let Ok(chunks) = chunks else {
        eprintln!(
            "usage: differential [sampled | exhaustive [CHUNKS]] (CHUNKS: do no more of them)"
        );
        return ExitCode::from(2);
    };

    // each family of calls adds its reports
    let mut reports = g711::reports(chunks.is_some());
    reports.extend(adpcm_ima::reports(chunks.is_some()));
    reports.extend(ima4::reports(chunks.is_some()));
    reports.extend(seek::reports(chunks.is_some()));
    reports.extend(ms::reports(chunks.is_some()));
    reports.extend(repack::reports(chunks.is_some()));
    reports.extend(loss::reports(chunks.is_some()));
    reports.extend(clips::reports(chunks.is_some()));
    reports.extend(chunks.map(exhaustive::encode));
    verdict(&reports)
}

fn verdict(reports: &[Report]) -> ExitCode {
    for report in reports {
        report.summary();
    }
    let compared: u64 = reports.iter().map(Report::compared).sum();
    let differ: u64 = reports.iter().map(Report::differ).sum();
    println!("in all: {compared} compared, {differ} differ");
    if reports.is_empty() || reports.iter().any(|report| report.compared() == 0) {
        println!("a call was not compared at all");
        return ExitCode::FAILURE;
    }
    if differ > 0 {
        return ExitCode::FAILURE;
    }
    ExitCode::SUCCESS
}
