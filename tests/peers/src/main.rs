//! Asks other software what it makes of the same bytes and samples, and prints a Markdown table of how
//! that differs from ours, or one of times. tools/peers starts it, and finds the software.

mod codec;
// no other software has a seek index, and blocks are read leniently here
#[allow(dead_code)]
#[path = "../../../bindings/rust/src/ffi.rs"]
mod ffi;
mod laws;
mod ours;
mod peer;
mod rows;
mod rules;
#[path = "../../differential/src/signal.rs"]
mod signal;
mod times;

use codec::CODECS;
use peer::Peer;
use rows::Row;
use std::process::ExitCode;

/// The words: what to print (table, each for one that merges nothing, or times), the folder for files,
/// then of each peer its kind, program and name. One with no program is not installed.
fn main() -> ExitCode {
    let words: Vec<String> = std::env::args().skip(1).collect();
    std::env::set_current_dir(&words[1]).expect("there is a folder for files");
    let ours = Peer::new(&["ours", "ours", "Sprettuhol"].map(String::from));
    let peers: Vec<Peer> = words[2..].chunks_exact(3).map(Peer::new).collect();
    if words[0] == "times" {
        times::print(&ours, &peers);
        return ExitCode::SUCCESS;
    }
    print(&ours, &peers, words[0] == "each")
}

/// Fails if our own rows differ, or a peer's that decode the laws, of which all do the same.
fn print(ours: &Peer, peers: &[Peer], each: bool) -> ExitCode {
    println!("| peer | codec | direction | inputs | compared | differ | by at most | why |");
    println!("|---|---|---|---|---:|---:|---:|---|");
    let mut wrong = 0;
    for peer in peers {
        if peer.program.is_empty() {
            println!("| {} | | | | | | | not installed |", peer.name);
            continue;
        }
        let rows = rows::rows(peer);
        let laws = rows.iter().filter(|row| row.decodes_a_law());
        wrong += laws.filter(|row| row.differs()).count();
        for row in if each { rows } else { merged(rows) } {
            row.print(&peer.name);
        }
        for codec in CODECS.into_iter().filter(|&codec| !peer.has(codec)) {
            println!("| {} | {} | | | | | | none |", peer.name, codec.name());
        }
    }
    let rows = rows::rows(ours);
    let count = rows.len();
    for row in rows.into_iter().filter(Row::differs) {
        row.print(&ours.name);
        wrong += 1;
    }
    println!();
    println!("A reason is given where, computed, it yields all of the peer's answers in its row. The step is s, the");
    println!("lowest three bits of a nibble m, and d how far a sample is from the predictor. The peers' MS encoders");
    println!("choose the blocks' length; ours takes it from them.");
    println!();
    println!("Our own {count} rows, through the same files, and each peer's two of laws decoded: {wrong} wrong.");
    ExitCode::from(u8::from(wrong > 0))
}

/// Rows that say the same of a codec and direction become one.
fn merged(rows: Vec<Row>) -> Vec<Row> {
    let mut merged: Vec<Row> = Vec::new();
    for row in rows {
        match merged.iter_mut().find(|earlier| earlier.like(&row)) {
            Some(earlier) => earlier.add(row),
            None => merged.push(row),
        }
    }
    merged
}
