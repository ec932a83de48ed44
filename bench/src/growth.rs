//! How the time of a sample changes from one block to a thousand, as a table and as a plot.

use crate::best::Best;
use crate::plot::{Line, Panel};
use crate::rounds::Row;

pub const MOST: usize = 1024;

/// 1, 2, 4 and so on.
pub fn sizes() -> impl Iterator<Item = usize> {
    (0..=MOST.ilog2()).map(|power| 1 << power)
}

/// One call on speech, with so many blocks each.
pub struct Series {
    call: &'static str,
    unit: &'static str,
    times: Vec<(usize, Best)>,
}

/// A number of blocks that was not timed would leave a hole.
pub fn series(rows: &[Row], call: &'static str) -> Series {
    let rows: Vec<&Row> = rows
        .iter()
        .filter(|row| row.call == call && row.content == "speech")
        .collect();
    assert!(rows.iter().map(|row| row.number).eq(sizes()), "{call}");
    Series {
        call,
        unit: rows[0].unit,
        times: rows.iter().map(|row| (row.number, row.best)).collect(),
    }
}

pub fn table(all: &[Series]) {
    let calls = all.iter().map(|series| series.call);
    let heads: String = calls
        .map(|call| format!(" {call}: ours | Rust | ours / Rust |"))
        .collect();
    println!("| blocks |{heads}");
    println!("|---:|{}", "---:|---:|---:|".repeat(all.len()));
    for (row, size) in sizes().enumerate() {
        let cells = all.iter().map(|series| cells(series.times[row].1));
        println!("| {size} |{}", cells.collect::<String>());
    }
}

fn cells(best: Best) -> String {
    let ratio = best.ratio();
    format!(" {:.2} | {:.2} | {ratio:.2} |", best.ours, best.rust)
}

/// One line each for ours and the Rust.
pub fn panel(title: &'static str, decode: &Series, encode: &Series) -> Panel {
    let mut lines = Vec::new();
    for (name, colour, series) in [("decode", "#1f5fa8", decode), ("encode", "#b8500f", encode)] {
        let line = |side, dashed, time: fn(&Best) -> f64| Line {
            name: format!("{name}, {side}"),
            colour,
            dashed,
            points: series
                .times
                .iter()
                .map(|(n, best)| (*n, time(best)))
                .collect(),
        };
        lines.push(line("ours", false, |best| best.ours));
        lines.push(line("the Rust", true, |best| best.rust));
    }
    Panel {
        title,
        unit: decode.unit,
        lines,
    }
}
