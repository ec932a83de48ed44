//! Times each call of the proved library and the oracle's, and prints Markdown tables: of the calls for
//! one value, of those for a run of ima4 blocks, of those for an MS block, of the loss report, of a seek
//! index, and of how a sample's time changes from one block to a thousand. The last is drawn besides, into the
//! file that the first argument names. What it is doing goes to standard error, so that standard output can go
//! to a file.
//!
//! The last line names the rows in which ours takes longer for no reason that is known. The status is 1 if
//! there are any.

mod adpcm_ima;
mod best;
#[path = "../../tests/differential/src/blocks.rs"]
mod blocks;
#[path = "../../bindings/rust/src/ffi.rs"]
mod ffi;
mod g711;
mod growth;
mod ima4;
mod loss;
mod ms;
// reading is timed as callers get it, strictly, and encoding over C
#[allow(dead_code)]
#[path = "../../tests/differential/src/ms/block.rs"]
mod ms_block;
#[path = "../../tests/differential/src/nibble.rs"]
mod nibble;
#[path = "../../tests/differential/src/loss/plain.rs"]
mod plain;
mod plot;
mod rounds;
mod seek;
#[path = "../../tests/differential/src/seek/calls.rs"]
mod seek_calls;
#[path = "../../tests/differential/src/signal.rs"]
mod signal;
mod timing;

use best::Verdict;
use growth::Series;
use rounds::Row;
use std::process::ExitCode;

/// Of every table of blocks: what became of the buffers.
const BUFFERS: &str =
    "The buffers are allocated and written once before the first round, and not cleared.";

fn main() -> ExitCode {
    if cfg!(debug_assertions) {
        println!("NOT a release build: these times say nothing.");
        println!();
    }
    let mut verdict = Verdict::default();
    values(&mut verdict);
    blocks(&mut verdict);
    verdict.end()
}

fn values(verdict: &mut Verdict) {
    println!("Nanoseconds a call, the best of {} runs.", timing::RUNS);
    println!("There are no buffers.");
    println!();
    println!(
        "| call | ours | Rust | ours / Rust | Rust behind a call | and copying as much | why above 1.0 |"
    );
    println!("|---|---:|---:|---:|---:|---:|---|");
    // each family of calls adds its rows
    for row in g711::rows().into_iter().chain(adpcm_ima::rows()) {
        let (best, reason) = (row.best, row.reason());
        verdict.take(row.call, best, reason);
        println!(
            "| {} | {:.2} | {:.2} | {:.2} | {:.2} | {} | {} |",
            row.call,
            best.ours,
            best.rust,
            best.ratio(),
            row.called,
            row.copied
                .map_or("-".to_string(), |time| format!("{time:.2}")),
            best.why(reason)
        );
    }
    println!();
    println!(
        "The empty loop takes {:.2} ns per input; every time above includes it.",
        timing::loop_alone()
    );
    println!();
}

fn blocks(verdict: &mut Verdict) {
    let (ima4, ms, loss) = (ima4::contents(), ms::contents(), loss::contents());
    let (seek, growing) = (seek::contents(), ms::growing());
    let mut tables = [
        ima4::rows(&ima4),
        ms::rows(&ms),
        loss::rows(&loss),
        seek::decoded(&seek),
        seek::indexed(&seek),
        ms::growth(&growing),
    ];
    eprintln!("timing runs of ima4, MS blocks, the loss report, and a seek index ..");
    rounds::time(&mut tables);
    for row in tables.iter().flatten() {
        let name = format!("{} {} {} {}", row.call, row.content, row.number, row.unit);
        verdict.take(&name, row.best, row.reason);
    }
    let [of_ima4, of_ms, of_loss, decoded, indexed, growing] = &tables;
    calls(of_ima4, of_ms, of_loss);
    jumps(decoded, indexed);
    grown(of_ima4, growing);
}

fn calls(of_ima4: &[Row], of_ms: &[Row], of_loss: &[Row]) {
    let runs = rounds::RUNS;
    println!(
        "Nanoseconds a sample, the best of {runs} runs over {} blocks.",
        ima4::BLOCKS
    );
    let shown = |row: &&Row| ima4::SHOWN.contains(&row.number);
    table("samples", of_ima4.iter().filter(shown).collect());
    let [one, two, six, eight] = [1, 2, 6, 8].map(|channels| ms::USUAL.blocks(channels));
    println!(
        "Nanoseconds a sample, the best of {runs} runs over {one} blocks of one channel, {two} of two, {six} of six,"
    );
    println!("or {eight} of eight. For six and eight the Rust has no call: it codes one channel at a time, cut out");
    println!("into a block of its own, and what comes back is woven.");
    let [one, two] = [1, 2].map(|channels| ms::ONE_GROUP.blocks(channels));
    println!(
        "Blocks of one group have eight bytes for each channel; of these there are {one}, or {two}."
    );
    table("samples", of_ms.iter().collect());
    println!(
        "Nanoseconds a pair of samples, the best of {runs} runs over {} pairs.",
        loss::SAMPLES
    );
    table("samples", of_loss.iter().collect());
}

fn jumps(decoded: &[Row], indexed: &[Row]) {
    let (runs, stretches) = (rounds::RUNS, seek::RUNS);
    let best = format!("nanoseconds a call, the best of {runs} runs over {stretches} stretches");
    println!("To the last block of a stretch of speech: {best}.");
    println!("The Rust has no index, and decodes all blocks.");
    table("every", decoded.iter().collect());
    println!("A seek index beside a stretch of speech: {best}.");
    println!(
        "The Rust is a plain loop that keeps the states, and jumps to the last block by them."
    );
    table("every", indexed.iter().collect());
}

/// The rows' content stands under that name.
fn table(content: &str, rows: Vec<&Row>) {
    let unit = rows[0].unit;
    println!("{BUFFERS}");
    println!();
    println!("| call | {content} | {unit} | ours | Rust | ours / Rust | why above 1.0 |");
    println!("|---|---|---:|---:|---:|---:|---|");
    for row in rows {
        println!(
            "| {} | {} | {} | {:.2} | {:.2} | {:.2} | {} |",
            row.call,
            row.content,
            row.number,
            row.best.ours,
            row.best.rust,
            row.best.ratio(),
            row.best.why(row.reason)
        );
    }
    println!();
}

fn grown(of_ima4: &[Row], of_ms: &[Row]) {
    println!(
        "From one block to {}, of speech: nanoseconds a sample, the best of {} runs.",
        growth::MOST,
        rounds::RUNS
    );
    println!(
        "Runs of ima4: so many blocks a call, {} in all.",
        ima4::BLOCKS
    );
    println!(
        "MS, one channel: so many blocks, one a call, over and over until {} samples went by.",
        rounds::LEAST
    );
    println!("{BUFFERS}");
    println!();
    let all = [
        growth::series(of_ima4, "decode_ima4"),
        growth::series(of_ima4, "encode_ima4"),
        growth::series(of_ms, "decode_ms"),
        growth::series(of_ms, "encode_ms"),
    ];
    growth::table(&all);
    println!();
    if let Some(file) = std::env::args_os().nth(1) {
        std::fs::write(&file, drawn(&all)).expect("the plot can be written");
    }
}

fn drawn([decode_ima4, encode_ima4, decode_ms, encode_ms]: &[Series; 4]) -> String {
    let panels = [
        growth::panel("Runs of ima4", decode_ima4, encode_ima4),
        growth::panel("MS blocks, one a call", decode_ms, encode_ms),
    ];
    let machine = std::env::consts::ARCH;
    let title = format!(
        "Time of a sample, from one block to {}, {machine}",
        growth::MOST
    );
    plot::svg(&title, &panels)
}
