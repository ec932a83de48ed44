//! What the exhaustive run has done so far, in a file, so that it can be stopped at any moment and goes
//! on from there. The file is replaced whole, so it is never half written.

use std::collections::BTreeMap;
use std::fs::{self, File};
use std::io::{self, Write};
use std::path::PathBuf;
use std::sync::{Mutex, MutexGuard};
use std::time::Instant;

const FOLDER: &str = concat!(env!("CARGO_MANIFEST_DIR"), "/../../target/exhaustive");
const FILE: &str = "encode_adpcm_ima.txt";
const TITLE: &str = "# What the exhaustive run has compared. Without this file it starts afresh.";

/// How many inputs differ, of each chunk that is done.
type Done = BTreeMap<u32, u64>;

pub struct Ledger {
    /// The archive and the number of chunks. A file about others is about another run.
    about: String,
    chunks: u32,
    done: Mutex<Done>,
    /// The seconds of the runs before this one.
    before: f64,
    start: Instant,
}

impl Ledger {
    pub fn open(chunks: u32) -> Ledger {
        let about = format!("libsweep.a {}, {chunks} chunks", env!("HASH_OF_sweep"));
        let earlier = fs::read_to_string(path(FILE)).ok().and_then(|text| {
            let read = read(&text, &about, chunks);
            if read.is_none() {
                eprintln!("{FILE} is about another archive, or damaged: starting afresh");
            }
            read
        });
        let (before, done) = earlier.unwrap_or_default();
        Ledger {
            about,
            chunks,
            done: Mutex::new(done),
            before,
            start: Instant::now(),
        }
    }

    /// Writes the file anew. A run whose file cannot be written goes on.
    pub fn save(&self) {
        if let Err(why) = self.replace() {
            eprintln!("{FILE} cannot be written, so this run cannot be resumed: {why}");
        }
    }

    fn replace(&self) -> io::Result<()> {
        fs::create_dir_all(FOLDER)?;
        let new = path(&format!("{}.new", std::process::id()));
        let mut file = File::create(&new)?;
        file.write_all(self.text().as_bytes())?;
        file.sync_all()?;
        fs::rename(&new, path(FILE))
    }

    fn text(&self) -> String {
        let mut text = format!("{TITLE}\n{}\nseconds: {:.1}\n", self.about, self.seconds());
        for (chunk, differ) in self.done().iter() {
            text += &format!("chunk {chunk}: {differ} differ\n");
        }
        text
    }

    fn done(&self) -> MutexGuard<'_, Done> {
        self.done.lock().expect("no thread fails while it has it")
    }

    pub fn todo(&self) -> Vec<u32> {
        let done = self.done();
        let todo = (0..self.chunks).filter(|chunk| !done.contains_key(chunk));
        todo.collect()
    }

    pub fn add(&self, chunk: u32, differ: u64) {
        self.done().insert(chunk, differ);
    }

    pub fn differ(&self) -> u64 {
        self.done().values().sum()
    }

    /// Of all runs, with this one.
    pub fn seconds(&self) -> f64 {
        self.before + self.start.elapsed().as_secs_f64()
    }
}

/// The seconds and the chunks that the file tells of. A line that is not understood spoils it all.
fn read(text: &str, about: &str, chunks: u32) -> Option<(f64, Done)> {
    let mut lines = text.lines();
    if lines.next()? != TITLE || lines.next()? != about {
        return None;
    }
    let seconds = lines.next()?.strip_prefix("seconds: ")?.parse().ok()?;
    let mut done = Done::new();
    for line in lines {
        let (chunk, differ) = line.strip_prefix("chunk ")?.split_once(": ")?;
        let chunk = chunk.parse().ok().filter(|&chunk| chunk < chunks)?;
        done.insert(chunk, differ.strip_suffix(" differ")?.parse().ok()?);
    }
    Some((seconds, done))
}

fn path(file: &str) -> PathBuf {
    PathBuf::from(FOLDER).join(file)
}
