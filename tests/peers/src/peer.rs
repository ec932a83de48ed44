//! The other software: what it is given, in files, and what it gives back.

use crate::codec::{Codec, Coded};
use crate::ours;
use std::fs;
use std::process::{Command, Stdio};
use std::time::Instant;

#[derive(Clone, Copy, Debug)]
pub enum Way {
    Decode,
    Encode,
}

pub struct Peer {
    /// ffmpeg, sox, sndfile or spandsp; or ours, which is our own library through the same files.
    pub kind: String,
    pub program: String,
    pub name: String,
}

impl Peer {
    pub fn new(words: &[String]) -> Peer {
        let [kind, program, name] = [0, 1, 2].map(|n| words[n].clone());
        Peer {
            kind,
            program,
            name,
        }
    }

    pub fn has(&self, codec: Codec) -> bool {
        match &self.kind[..] {
            "sox" => codec != Codec::Ima4,
            "spandsp" => !matches!(codec, Codec::Ms(2) | Codec::Ima4),
            _ => true,
        }
    }

    /// A command is timed from its start to its end, files and all; a library without them.
    pub fn is_library(&self) -> bool {
        matches!(&self.kind[..], "sndfile" | "spandsp")
    }

    pub fn decode(&self, codec: Codec, coded: &Coded) -> Vec<i16> {
        self.put_coded(codec, coded);
        self.run(Way::Decode, codec, coded.block, 1);
        samples_of(&self.got())
    }

    /// Only spandsp and we are told the block's length; the others have one of their own.
    pub fn encode(&self, codec: Codec, samples: &[i16], block: usize) -> Coded {
        self.put(&bytes_of(samples));
        self.run(Way::Encode, codec, block, 1);
        let bytes = self.got();
        if bytes.is_empty() || self.kind == "spandsp" {
            return Coded { bytes, block };
        }
        codec.read(&bytes)
    }

    pub fn put_coded(&self, codec: Codec, coded: &Coded) {
        match &self.kind[..] {
            "spandsp" => self.put(&coded.bytes),
            _ => self.put(&codec.file(coded)),
        }
    }

    pub fn put(&self, file: &[u8]) {
        // what is there of an earlier question must not be taken for an answer
        let _ = fs::remove_file("out");
        fs::write("in", file).expect("the folder can be written to");
    }

    /// Nothing, if the peer wrote nothing.
    fn got(&self) -> Vec<u8> {
        fs::read("out").unwrap_or_default()
    }

    /// From the file "in" to the file "out". The nanoseconds that it took; a library says the best of so
    /// many runs.
    pub fn run(&self, way: Way, codec: Codec, block: usize, runs: usize) -> f64 {
        let began = Instant::now();
        if self.kind == "ours" {
            self.run_ours(way, codec, block);
            return began.elapsed().as_nanos() as f64;
        }
        let words = self.words(way, codec, block, runs);
        let mut command = Command::new(&self.program);
        command.args(words.split_whitespace());
        let said = command.stdin(Stdio::null()).stderr(Stdio::null()).output();
        let took = began.elapsed().as_nanos() as f64;
        let said = said
            .expect("a program that was found can be started")
            .stdout;
        String::from_utf8_lossy(&said)
            .trim()
            .parse()
            .unwrap_or(took)
    }

    fn run_ours(&self, way: Way, codec: Codec, block: usize) {
        let file = fs::read("in").expect("it was just written");
        let out = match way {
            Way::Decode => bytes_of(&ours::decode(codec, &codec.read(&file))),
            Way::Encode => codec.file(&ours::encode(codec, &samples_of(&file), block)),
        };
        fs::write("out", out).expect("the folder can be written to");
    }

    fn words(&self, way: Way, codec: Codec, block: usize, runs: usize) -> String {
        let channels = codec.channels();
        let (library, ffmpeg, coder, sox) = match codec {
            Codec::Ulaw => (
                "mulaw",
                "mulaw -ar 22050 -ac 1",
                "pcm_mulaw",
                "ul -r 22050 -c 1",
            ),
            Codec::Alaw => (
                "alaw",
                "alaw -ar 22050 -ac 1",
                "pcm_alaw",
                "al -r 22050 -c 1",
            ),
            Codec::Ms(_) => ("ms", "wav", "adpcm_ima_wav", "wav"),
            Codec::Ima4 => ("ima4", "aiff", "adpcm_ima_qt", ""),
        };
        let raw = format!("-t raw -e signed -b 16 -L -r 22050 -c {channels}");
        let ima = if let Codec::Ms(_) = codec {
            "-e ima-adpcm"
        } else {
            ""
        };
        let quiet = "-v quiet -nostdin -threads 1";
        let one = "-i in -threads 1";
        // SoX dithers, if it is not told to leave that
        match (&self.kind[..], way) {
            ("ffmpeg", Way::Decode) => format!("{quiet} -f {ffmpeg} {one} -f s16le -y out"),
            ("ffmpeg", Way::Encode) => {
                let from = format!("-f s16le -ar 22050 -ac {channels}");
                format!("{quiet} {from} {one} -c:a {coder} -f {ffmpeg} -y out")
            }
            ("sox", Way::Decode) => format!("-D -V1 -t {sox} in {raw} out"),
            ("sox", Way::Encode) => format!("-D -V1 {raw} in -t {sox} {ima} out"),
            _ => format!("{way:?} {library} {channels} {block} in out {runs}").to_lowercase(),
        }
    }
}

pub fn bytes_of(samples: &[i16]) -> Vec<u8> {
    let mut bytes = vec![0; 2 * samples.len()];
    for (bytes, sample) in bytes.chunks_exact_mut(2).zip(samples) {
        bytes.copy_from_slice(&sample.to_le_bytes());
    }
    bytes
}

fn samples_of(bytes: &[u8]) -> Vec<i16> {
    let pairs = bytes.chunks_exact(2);
    pairs
        .map(|pair| i16::from_le_bytes([pair[0], pair[1]]))
        .collect()
}
