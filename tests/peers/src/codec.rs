//! The codecs, and the files that hold their bytes.

/// MS blocks have so many channels.
#[derive(Clone, Copy, PartialEq)]
pub enum Codec {
    Ulaw,
    Alaw,
    Ms(u8),
    Ima4,
}

pub const CODECS: [Codec; 5] = [
    Codec::Ulaw,
    Codec::Alaw,
    Codec::Ms(1),
    Codec::Ms(2),
    Codec::Ima4,
];

/// What an encoder wrote, and how many bytes of it are a block.
#[derive(Clone)]
pub struct Coded {
    pub bytes: Vec<u8>,
    pub block: usize,
}

impl Codec {
    pub fn name(self) -> &'static str {
        match self {
            Codec::Ulaw => "mu-law",
            Codec::Alaw => "A-law",
            Codec::Ms(1) => "MS, mono",
            Codec::Ms(_) => "MS, stereo",
            Codec::Ima4 => "ima4",
        }
    }

    pub fn channels(self) -> u8 {
        match self {
            Codec::Ms(channels) => channels,
            _ => 1,
        }
    }

    /// The bytes of a block, where it is for us to choose.
    pub fn block(self) -> usize {
        match self {
            Codec::Ms(_) => 1024,
            Codec::Ima4 => 34,
            _ => 1,
        }
    }

    /// Samples of all channels in a block of so many bytes.
    pub fn samples(self, block: usize) -> usize {
        match self {
            Codec::Ms(channels) => 2 * block - 7 * channels as usize,
            Codec::Ima4 => 64,
            _ => 1,
        }
    }

    /// The file that a program is given: bare codes, a WAV file or an AIFF-C file.
    pub fn file(self, coded: &Coded) -> Vec<u8> {
        let blocks = (coded.bytes.len() / coded.block) as u32;
        let head = match self {
            Codec::Ms(channels) => wav(channels.into(), blocks, coded.block as u32),
            Codec::Ima4 => aifc(blocks),
            _ => Vec::new(),
        };
        [&head, &coded.bytes[..]].concat()
    }

    /// The whole blocks of such a file, whoever wrote it.
    pub fn read(self, file: &[u8]) -> Coded {
        let (mut bytes, block) = match self {
            Codec::Ms(_) => {
                let format = chunk(file, b"fmt ", u32::from_le_bytes);
                let block = u16::from_le_bytes([format[12], format[13]]);
                (chunk(file, b"data", u32::from_le_bytes), block.into())
            }
            Codec::Ima4 => (chunk(file, b"SSND", u32::from_be_bytes).split_off(8), 34),
            _ => (file.to_vec(), 1),
        };
        bytes.truncate(bytes.len() / block * block);
        Coded { bytes, block }
    }
}

fn chunk(file: &[u8], name: &[u8; 4], number: fn([u8; 4]) -> u32) -> Vec<u8> {
    let mut at = 12;
    while at + 8 <= file.len() {
        let size = number([4, 5, 6, 7].map(|n| file[at + n])) as usize;
        let end = (at + 8 + size).min(file.len());
        if file[at..].starts_with(name) {
            return file[at + 8..end].to_vec();
        }
        at = end + size % 2;
    }
    panic!("a peer's file has no chunk {}", name.escape_ascii());
}

/// The rate is 22,050 samples a second.
fn wav(channels: u32, blocks: u32, block: u32) -> Vec<u8> {
    let (len, frames) = (blocks * block, 2 * block / channels - 7);
    let bytes = |numbers: &[u32]| -> Vec<u8> {
        let bytes = numbers.iter().map(|number| number.to_le_bytes());
        bytes.flatten().collect()
    };
    let pair = |low: u32, high: u32| (high << 16) | low;
    let rates = [22_050, 22_050 * block / frames];
    let sizes = [pair(block, 4), pair(2, frames)];
    let format = [&[20, pair(0x11, channels)][..], &rates, &sizes].concat();
    let head = [
        &b"RIFF"[..],
        &bytes(&[52 + len]),
        b"WAVEfmt ",
        &bytes(&format),
    ];
    let fact = [&b"fact"[..], &bytes(&[4, blocks * frames])];
    let data = [&b"data"[..], &bytes(&[len])];
    [head.concat(), fact.concat(), data.concat()].concat()
}

/// The number of frames is that of blocks, as QuickTime has it, and the rate an 80-bit float.
fn aifc(blocks: u32) -> Vec<u8> {
    let len = 34 * blocks;
    let form = [&b"FORM"[..], &(52 + len).to_be_bytes(), b"AIFC"];
    let common = [
        &b"COMM\0\0\0\x18\0\x01"[..],
        &blocks.to_be_bytes(),
        b"\0\x10",
    ];
    let rate = b"\x40\x0d\xac\x44\0\0\0\0\0\0ima4\0\0".to_vec();
    let sound = [&b"SSND"[..], &(8 + len).to_be_bytes(), &[0; 8]];
    [form.concat(), common.concat(), rate, sound.concat()].concat()
}
