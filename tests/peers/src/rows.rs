//! The rows of the table: what is asked, and how the peer's answer differs from ours.

use crate::codec::{Codec, Coded, CODECS};
use crate::peer::Peer;
use crate::rules::{unwritten, Rule};
use crate::signal::{noise, speech, Random};
use crate::{ffi, laws, ours};

pub struct Row {
    pub codec: Codec,
    pub way: &'static str,
    pub inputs: String,
    pub unit: &'static str,
    pub compared: usize,
    pub differ: usize,
    pub peak: Option<i32>,
    pub words: String,
}

impl Row {
    pub fn decodes_a_law(&self) -> bool {
        self.way == "decode" && matches!(self.codec, Codec::Ulaw | Codec::Alaw)
    }

    /// Nothing compared is no agreement.
    pub fn differs(&self) -> bool {
        self.differ > 0 || self.compared == 0
    }

    pub fn like(&self, other: &Row) -> bool {
        let key = |row: &Row| (row.codec.name(), row.way, row.unit, row.words.clone());
        key(self) == key(other)
    }

    pub fn add(&mut self, other: Row) {
        self.inputs = format!("{}, {}", self.inputs, other.inputs);
        self.compared += other.compared;
        self.differ += other.differ;
        self.peak = self.peak.max(other.peak);
    }

    pub fn print(&self, peer: &str) {
        let [compared, differ] = [self.compared, self.differ].map(grouped);
        let peak = self.peak.map(|peak| grouped(peak as usize));
        let asked = [self.codec.name(), self.way, &self.inputs].join(" | ");
        print!(
            "| {peer} | {asked} | {compared} {} | {differ} | ",
            self.unit
        );
        println!("{} | {} |", peak.unwrap_or_default(), self.words);
    }
}

fn grouped(number: usize) -> String {
    match number {
        0..1000 => number.to_string(),
        _ => format!("{},{:03}", grouped(number / 1000), number % 1000),
    }
}

/// Frames of the samples that are encoded.
const FRAMES: usize = 64_000;

pub fn rows(peer: &Peer) -> Vec<Row> {
    let mut rows = Vec::new();
    for codec in CODECS.into_iter().filter(|&codec| peer.has(codec)) {
        for (name, coded) in codes(codec) {
            rows.push(decode(peer, codec, name, &coded));
        }
        for (name, samples) in contents(codec) {
            let theirs = peer.encode(codec, &samples, codec.block());
            rows.extend(encode(codec, name, &samples, theirs.clone()));
            if codec == Codec::Ima4 && name == "speech" {
                rows.push(decode(peer, codec, "its own bytes of speech", &theirs));
            }
        }
    }
    rows
}

/// Samples to encode: of the laws all, else of each kind, each channel its own.
fn contents(codec: Codec) -> Vec<(&'static str, Vec<i16>)> {
    if matches!(codec, Codec::Ulaw | Codec::Alaw) {
        return vec![("all samples", (i16::MIN..=i16::MAX).collect())];
    }
    let wide = |make: fn(u64, usize) -> Vec<i16>| {
        let each = (0..codec.channels()).map(|seed| make(seed.into(), FRAMES));
        let each: Vec<Vec<i16>> = each.collect();
        let frame = |n: usize| each.iter().map(move |channel| channel[n]);
        (0..FRAMES).flat_map(frame).collect::<Vec<i16>>()
    };
    let (speech, noise) = (wide(speech), wide(noise));
    let loud = speech.iter().map(|sample| sample.saturating_mul(4));
    let faint = noise.iter().map(|sample| sample >> 13).collect();
    let clipped = loud.collect();
    vec![
        ("speech", speech),
        ("noise", noise),
        ("clipped speech", clipped),
        ("faint noise", faint),
    ]
}

/// Bytes to decode: of the laws all, else what we encode and what nobody does.
fn codes(codec: Codec) -> Vec<(&'static str, Coded)> {
    let block = codec.block();
    if block == 1 {
        let bytes = (0..=255).collect();
        return vec![("all codes", Coded { bytes, block })];
    }
    let mut codes: Vec<(&str, Coded)> = Vec::new();
    for (name, samples) in contents(codec) {
        codes.push((name, ours::encode(codec, &samples, block)));
    }
    let speech = codes[0].1.clone();
    let mut high = speech.clone();
    let most = if codec == Codec::Ima4 { 39 } else { 167 };
    for (n, blocks) in high.bytes.chunks_mut(4 * block).enumerate() {
        set_index(codec, &mut blocks[block..], 0, 89 + (n * 7 % most) as u8);
    }
    let mut random = speech.clone();
    let bytes = Random::new(3).map(|number| (number >> 24) as u8);
    random.bytes = bytes.take(speech.bytes.len()).collect();
    for block in random.bytes.chunks_mut(block) {
        for channel in 0..codec.channels().into() {
            set_index(codec, block, channel, block[4 * channel + 2] % 89);
        }
    }
    codes.push(("random bytes with indices to 88", random));
    codes.push(("speech with each fourth index above 88", high));
    if codec == Codec::Ima4 {
        let bytes = speech.bytes[block..].to_vec();
        codes.push(("speech without its first block", Coded { bytes, block }));
    }
    codes
}

fn set_index(codec: Codec, block: &mut [u8], channel: usize, index: u8) {
    match codec {
        Codec::Ima4 => block[1] = (block[1] & 0x80) | index,
        _ => block[4 * channel + 2..][..2].copy_from_slice(&[index, 0]),
    }
}

/// What one side lacks differs, too.
fn row<T: Copy + Into<i32>>(
    (codec, way, name, unit): (Codec, &'static str, &str, &'static str),
    (ours, theirs): (&[T], &[T]),
    reason: impl FnOnce() -> Option<String>,
) -> Row {
    let by = |(&ours, &theirs): (&T, &T)| (ours.into() - theirs.into()).abs();
    let apart: Vec<i32> = ours.iter().zip(theirs).map(by).collect();
    let lacking = ours.len().abs_diff(theirs.len());
    let differ = apart.iter().filter(|&&by| by > 0).count() + lacking;
    let mut words = String::new();
    if differ > 0 {
        words = reason().unwrap_or("the reason is not known".into());
    }
    if lacking > 0 {
        words = format!("the lengths differ: {words}");
    }
    // beside a gap a sample is held to another one, and the numbers of codes mean nothing
    let peak = (unit == "samples" && lacking == 0).then(|| apart.into_iter().max().unwrap_or(0));
    let (compared, inputs) = (ours.len(), name.into());
    Row {
        codec,
        way,
        inputs,
        unit,
        compared,
        differ,
        peak,
        words,
    }
}

fn decode(peer: &Peer, codec: Codec, name: &str, coded: &Coded) -> Row {
    let (ours, theirs) = (ours::decode(codec, coded), peer.decode(codec, coded));
    let reason = || Rule::reason(|rule| rule.decode(codec, coded) == theirs);
    row((codec, "decode", name, "samples"), (&ours, &theirs), reason)
}

/// The bytes of whole blocks, held to ours, of which each starts from the state behind the one before.
fn encode(codec: Codec, name: &str, samples: &[i16], mut theirs: Coded) -> Vec<Row> {
    let ours = ours::encode(codec, samples, theirs.block).bytes;
    theirs.bytes.truncate(ours.len());
    let reason = || match codec {
        Codec::Ms(wide) => Rule::reason(|rule| rule.encode(wide, samples, &theirs) == theirs.bytes),
        Codec::Ima4 => None,
        _ => laws::reason(codec, samples, &theirs.bytes).map(String::from),
    };
    let row = |way, ours: &[u8]| row((codec, way, name, "bytes"), (ours, &theirs.bytes), reason);
    let mut rows = vec![row("encode", &ours)];
    if let Codec::Ms(channels) = codec {
        if rows[0].differ > 0 {
            let alike = Rule(0).encode(channels, samples, &theirs);
            rows.push(row("encode, ours from its first indices", &alike));
        }
        rows.extend(repack(codec, name, &theirs));
    }
    rows
}

/// How many blocks change when they are repacked, and how many samples that moves.
fn repack(codec: Codec, name: &str, theirs: &Coded) -> Vec<Row> {
    let (block, channels) = (theirs.block, codec.channels());
    let (mut changes, mut found) = (Vec::new(), Vec::new());
    let (mut moved, mut peak) = (0, 0);
    for bytes in theirs.bytes.chunks(block) {
        let (mut changed, mut out) = (0, vec![0; block]);
        ours::done(ffi::repack_ms_lenient(
            channels,
            bytes,
            &mut changed,
            &mut out,
        ));
        changes.push(changed);
        found.push(unwritten(channels.into(), bytes));
        let both = [bytes.to_vec(), out].map(|bytes| Coded { bytes, block });
        let [before, after] = both.map(|coded| ours::decode(codec, &coded));
        let (mut count, mut first, mut most) = (0, 0, 0);
        ours::done(ffi::loss(
            &before, &after, &mut count, &mut first, &mut most,
        ));
        moved += count as usize;
        peak = peak.max(most.into());
    }
    let none = vec![0; changes.len()];
    let reason = || {
        let words = ["nibble 8 at step 7", "nibbles out of reach at a limit"];
        let words = [0, 1].map(|n| found.iter().any(|found| found[n]).then_some(words[n]));
        let words: Vec<&str> = words.into_iter().flatten().collect();
        let has_any = found.iter().map(|found| u8::from(found.contains(&true)));
        let right = has_any.eq(changes.iter().copied());
        right.then(|| format!("has what ours never writes: {}", words.join(", ")))
    };
    let way = "encode, then repacked by us";
    let row = |unit| row((codec, way, name, unit), (&none, &changes), reason);
    let mut rows = vec![row("blocks")];
    if rows[0].differ > 0 {
        let (compared, peak) = (none.len() * codec.samples(block), Some(peak));
        rows.push(Row {
            compared,
            differ: moved,
            peak,
            ..row("samples")
        });
    }
    rows
}
