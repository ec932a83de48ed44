//! A program on records at random: what it prints is compared, whole.

use crate::answer::{answer, Reading};
use crate::damage::Records;
use crate::parallel::each;
use std::collections::BTreeMap;
use std::error::Error;
use std::io::{self, Write};
use std::process::{ChildStdin, Command, Stdio};
use std::sync::Mutex;
use std::thread::sleep;
use std::time::Duration;

const SEED: u64 = 1;
const RECORDS: usize = 3_000;
/// So many differences are printed. All are counted.
const PRINTED: usize = 10;

pub fn run(reading: Reading) -> Result<(), Box<dyn Error>> {
    let words = io::read_to_string(io::stdin())?;
    let words: Vec<&str> = words.lines().collect();
    let (program, words) = words.split_first().ok_or("no words to start it with")?;
    let mut source = Records::new(SEED);
    let mut pair = || {
        let record = source.next();
        let answer = answer(reading, &record);
        (record, answer)
    };
    let pairs: Vec<(Vec<u8>, String)> = (0..RECORDS).map(|_| pair()).collect();

    let wrong = Mutex::new(BTreeMap::new());
    each(pairs.iter().enumerate(), |(number, (record, answer))| {
        // now and then it comes in pieces, as it may from a pipe
        let pieces = if number % 50 == 0 { 3 } else { 1 };
        let printed = start(program, words, record, pieces).unwrap_or_else(|why| why.to_string());
        if printed != *answer {
            let mut wrong = wrong.lock().expect("no thread fails while it has it");
            wrong.insert(number, printed);
        }
    });
    let wrong = wrong.into_inner()?;

    for (&number, printed) in wrong.iter().take(PRINTED) {
        let (record, answer) = &pairs[number];
        println!("record {number}, {}", shown(record));
        let (answer, printed) = (start_of(answer), start_of(printed));
        println!("it has to print {answer:?}, and printed {printed:?}");
    }
    let kinds = kinds(pairs.iter().map(|(_, answer)| answer));
    let differ = wrong.len();
    println!("{RECORDS} records from seed {SEED}, {differ} differ. The answers: {kinds}");
    match differ {
        0 => Ok(()),
        _ => Err("the program printed something else than the oracle answers".into()),
    }
}

/// Hands the program its input in so many pieces, and hands back what it printed.
fn start(
    program: &str,
    words: &[&str],
    input: &[u8],
    pieces: usize,
) -> Result<String, Box<dyn Error>> {
    let mut command = Command::new(program);
    command.args(words).stdin(Stdio::piped());
    let mut child = command.stdout(Stdio::piped()).spawn()?;
    // what it prints fits a pipe, so that it never waits for us to read while we write
    let stdin = child.stdin.take().ok_or("no standard input")?;
    feed(stdin, input, pieces)?;
    let output = child.wait_with_output()?;
    if !output.status.success() {
        return Err(format!("it ended with {}", output.status).into());
    }
    Ok(String::from_utf8(output.stdout)?)
}

/// A program that has seen enough may stop reading.
fn feed(mut stdin: ChildStdin, input: &[u8], pieces: usize) -> io::Result<()> {
    for piece in input.chunks(input.len().div_ceil(pieces).max(1)) {
        match stdin.write_all(piece) {
            Err(why) if why.kind() == io::ErrorKind::BrokenPipe => return Ok(()),
            other => other?,
        }
        if pieces > 1 {
            sleep(Duration::from_millis(10));
        }
    }
    Ok(())
}

/// How many answers there are of each kind: of a refusal all is looked at, of others the first word.
fn kinds<'a>(answers: impl Iterator<Item = &'a String>) -> String {
    let mut kinds = BTreeMap::new();
    for answer in answers {
        let line = answer.lines().next().unwrap_or_default();
        let kind = match line.split_once(' ') {
            Some(("changed", _)) => "changed",
            _ => line,
        };
        *kinds.entry(kind).or_insert(0) += 1;
    }
    let words: Vec<String> = kinds
        .iter()
        .map(|(kind, n)| format!("{n} {kind}"))
        .collect();
    words.join(", ")
}

fn start_of(text: &str) -> String {
    text.chars().take(100).collect()
}

fn shown(record: &[u8]) -> String {
    let some = record.iter().take(40);
    let words: Vec<String> = some.map(|byte| format!("{byte:02X}")).collect();
    format!("{} bytes: {}", record.len(), words.join(" "))
}
