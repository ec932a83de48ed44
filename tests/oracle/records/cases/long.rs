//! Long blocks, up to the largest that a record has room for, and some that are random.

use super::Case;
use crate::damage::record;
use crate::oracle::{encode, fitting};
use crate::signal::{noise, speech, Random};

pub fn all() -> Vec<Case> {
    let cases = [same(), one(), two(), more(), high()];
    cases.into_iter().flatten().collect()
}

fn same() -> Vec<Case> {
    let of = |name, channels, block: Vec<u8>| Case::new(name, record(channels, &block), "same");
    vec![
        of("same_mono_speech", 1, encoded(1, speech, 0, 256)),
        of("same_mono_noise_4095", 1, encoded(1, noise, 88, 4_095)),
        of("same_mono_largest", 1, encoded(1, speech, 0, 4_096)),
        of("same_mono_largest_silence", 1, vec![0; 4_096]),
        of("same_stereo_speech", 2, encoded(2, speech, 10, 2_048)),
        of("same_stereo_largest", 2, encoded(2, noise, 44, 4_096)),
    ]
}

fn one() -> Vec<Case> {
    let of = |name, block: Vec<u8>, loss| Case::new(name, record(1, &block), changed(loss));
    let clipped = "changed 0 first - peak 0";
    vec![
        of("moved_first_100", late(50), [1, 100, 1]),
        of("moved_first_1000", late(500), [1, 1_000, 1]),
        of("moved_last_of_largest", late(4_092), [1, 8_184, 1]),
        Case::new("bytes_largest_clipped", record(1, &[0x77; 4_096]), clipped).high(),
    ]
}

fn two() -> Vec<Case> {
    let of = |name, block: Vec<u8>, loss| Case::new(name, record(2, &block), changed(loss));
    vec![
        of(
            "moved_stereo_left_of_speech",
            highest(2, 0, 1_024),
            [319, 114, 949],
        ),
        of("moved_stereo_last_of_largest", last(2), [1, 8_177, 1]),
    ]
}

/// Of three to eight channels: what stays, and what moves in the last of them.
fn more() -> Vec<Case> {
    let of_speech = [
        [264, 23, 1_305],
        [476, 107, 549],
        [43, 104, 219],
        [155, 23, 1_550],
        [459, 132, 1_740],
        [467, 135, 2_076],
    ];
    let of = |(channels, loss): (u8, [u16; 3])| {
        let case = |first: &str, rest: &str, block: Vec<u8>, line: String| {
            let name = format!("{first}_{channels}_channels_{rest}");
            Case::new(name, record(channels, &block), line)
        };
        let (same, number) = ("same".to_string(), usize::from(channels));
        let (usual, largest) = (256 * number, largest(channels));
        let speech = encoded(channels, speech, 10, usual);
        let noise = encoded(channels, noise, 44, largest);
        let highest = highest(channels, number - 1, usual);
        let end = fitting(channels, largest) as u16 - 1;
        [
            case("same", "speech", speech, same.clone()),
            case("same", "largest", noise, same),
            case("moved", "last_of_speech", highest, changed(loss)),
            case(
                "moved",
                "last_of_largest",
                last(channels),
                changed([1, end, 1]),
            ),
        ]
    };
    (3..=8).zip(of_speech).flat_map(of).collect()
}

/// Random blocks that gave a number worth printing. All of them have an index above 88, so each comes twice:
/// as it is, and with 88 there, which moves the same samples.
fn high() -> Vec<Case> {
    let of = |name: &str, channels, block: Vec<u8>, loss| {
        let lowered = record(channels, &lowered(channels, &block));
        [
            Case::new(name, record(channels, &block), changed(loss)).high(),
            Case::new(format!("{name}_lowered"), lowered, changed(loss)),
        ]
    };
    let cases = [
        of("moved_count_10", 1, random(286, 9), [10, 1, 2_910]),
        of("moved_count_100", 1, random(74, 67), [100, 2, 18_303]),
        of("moved_count_1000", 1, random(5, 733), [1_000, 2, 42_333]),
        of("moved_4095", 1, random(2, 4_095), [5_411, 1, 37_747]),
        of("moved_largest", 1, random(1, 4_096), [5_403, 2, 39_900]),
        of("moved_stereo_4088", 2, random(4, 4_088), [5_319, 6, 40_423]),
        of(
            "moved_stereo_largest",
            2,
            random(3, 4_096),
            [5_369, 9, 45_650],
        ),
        of(
            "moved_3_channels_4080",
            3,
            random(3, 4_080),
            [5_280, 5, 41_714],
        ),
        of("moved_6_channels_480", 6, random(6, 480), [623, 9, 34_039]),
        of(
            "moved_8_channels_largest",
            8,
            random(8, 4_096),
            [5_192, 11, 39_683],
        ),
    ];
    cases.into_iter().flatten().collect()
}

fn changed([count, first, peak]: [u16; 3]) -> String {
    format!("changed {count} first {first} peak {peak}")
}

/// One channel at 32,758, with a nibble at the end that clips.
fn late(bytes: usize) -> Vec<u8> {
    let mut block = vec![0; 4 + bytes];
    block[..2].copy_from_slice(&[0xf6, 0x7f]);
    block[3 + bytes] = 0x70;
    block
}

/// The same in the last channel of the largest block, and silence in the others.
fn last(channels: u8) -> Vec<u8> {
    let len = largest(channels);
    let mut block = vec![0; len];
    block[4 * usize::from(channels) - 4..][..2].copy_from_slice(&[0xf6, 0x7f]);
    block[len - 1] = 0x70;
    block
}

/// The length of the largest block of so many channels, two or more, that a record has room for.
fn largest(channels: u8) -> usize {
    let group = 4 * usize::from(channels);
    4_096 / group * group
}

/// Speech, of which one channel starts from the upper end of the scale.
fn highest(channels: u8, channel: usize, len: usize) -> Vec<u8> {
    let mut block = encoded(channels, speech, 60, len);
    block[4 * channel..][..2].copy_from_slice(&[0xff, 0x7f]);
    block
}

fn encoded(channels: u8, of: fn(u64, usize) -> Vec<i16>, index: u8, len: usize) -> Vec<u8> {
    let samples = of(1, fitting(channels, len));
    let mut block = vec![0; len];
    let number = encode(channels, &samples, &mut [(0, index); 8], &mut block);
    assert_eq!(number, 0, "a block of {len} bytes is taken");
    block
}

/// With no index above 88.
fn lowered(channels: u8, block: &[u8]) -> Vec<u8> {
    let mut block = block.to_vec();
    for header in block.chunks_exact_mut(4).take(channels.into()) {
        header[2] = header[2].min(88);
    }
    block
}

fn random(seed: u64, len: usize) -> Vec<u8> {
    let bytes = Random::new(seed).map(|number| (number >> 24) as u8);
    bytes.take(len).collect()
}
