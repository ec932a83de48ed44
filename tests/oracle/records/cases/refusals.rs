//! Records that are refused by both programs: malformed ones by 4, then channel numbers by 1, then lengths
//! by 2.

use super::Case;
use crate::damage::record;

/// The record that the scope has as its example. Nothing is wrong with it.
const EXAMPLE: [u8; 9] = [0, 7, 1, 1, 0xf6, 0x7f, 0, 0, 7];

pub fn all() -> Vec<Case> {
    let malformed = [short(), lengths(), extra(), versions()];
    let others = [channels(), blocks(), indices()];
    malformed.into_iter().chain(others).flatten().collect()
}

fn malformed(name: &'static str, input: &[u8]) -> Case {
    Case::new(name, input.to_vec(), "refused 4")
}

/// The input ends too early.
fn short() -> Vec<Case> {
    let largest = record(1, &[0; 4_096]);
    vec![
        malformed("malformed_empty", &[]),
        malformed("malformed_one_byte", &[0]),
        malformed("malformed_length_alone", &[0, 7]),
        malformed("malformed_length_and_version_alone", &[0, 7, 1]),
        malformed("malformed_length_2_nothing_behind", &[0, 2]),
        malformed("malformed_length_2_no_channels", &[0, 2, 1]),
        malformed("malformed_one_byte_short", &EXAMPLE[..8]),
        malformed("malformed_largest_one_byte_short", &largest[..4_099]),
        malformed("malformed_short_with_channels_9", &[0, 7, 1, 9, 0]),
    ]
}

/// The length field is not 2 to 4,098, or not that of what follows.
fn lengths() -> Vec<Case> {
    let of = |len: u16, follow: usize| {
        let [high, low] = len.to_be_bytes();
        let rest = (0..follow).map(|k| u8::from(k < 2));
        [high, low].into_iter().chain(rest).collect::<Vec<u8>>()
    };
    let with = |high, low| [&[high, low], &EXAMPLE[2..]].concat();
    vec![
        malformed("malformed_length_0", &[0, 0]),
        malformed("malformed_length_0_record_behind", &with(0, 0)),
        malformed("malformed_length_1_nothing_behind", &[0, 1]),
        malformed("malformed_length_1_version_behind", &[0, 1, 1]),
        malformed("malformed_length_1_record_behind", &with(0, 1)),
        malformed("malformed_length_4099_all_there", &of(4_099, 4_099)),
        malformed("malformed_length_4099_one_less_there", &of(4_099, 4_098)),
        malformed("malformed_length_4099_little_there", &with(0x10, 0x03)),
        malformed("malformed_length_65535_all_there", &of(65_535, 65_535)),
        malformed("malformed_length_65535_little_there", &with(0xff, 0xff)),
        malformed("malformed_length_one_too_small", &with(0, 6)),
        malformed("malformed_length_one_too_large", &with(0, 8)),
        malformed("malformed_length_little_endian", &with(7, 0)),
        malformed("malformed_length_high_byte_1", &with(1, 7)),
        malformed("malformed_text", b"0007 0101 F67F000007\n"),
    ]
}

/// More comes behind the record. With 65,536 bytes more the record is whole to whoever counts with 16
/// bits.
fn extra() -> Vec<Case> {
    let largest = record(1, &[0; 4_096]);
    let more = |record: &[u8], len| [record, &vec![0; len]].concat();
    vec![
        malformed("malformed_one_byte_more", &more(&EXAMPLE, 1)),
        malformed("malformed_newline_more", &[&EXAMPLE[..], b"\n"].concat()),
        malformed("malformed_4095_bytes_more", &more(&EXAMPLE, 4_095)),
        malformed("malformed_65536_bytes_more", &more(&EXAMPLE, 65_536)),
        malformed("malformed_two_records", &EXAMPLE.repeat(2)),
        malformed("malformed_largest_one_byte_more", &more(&largest, 1)),
        malformed("malformed_largest_5000_bytes_more", &more(&largest, 5_000)),
        malformed(
            "malformed_largest_65536_bytes_more",
            &more(&largest, 65_536),
        ),
        malformed("malformed_one_byte_more_channels_9", &[0, 2, 1, 9, 0]),
    ]
}

/// A version other than 1, which is looked at before the channel number and the block's length.
fn versions() -> Vec<Case> {
    let of = |version| [&EXAMPLE[..2], &[version], &EXAMPLE[3..]].concat();
    vec![
        malformed("malformed_version_0", &of(0)),
        malformed("malformed_version_2", &of(2)),
        malformed("malformed_version_255", &of(255)),
        malformed("malformed_version_2_channels_9", &[0, 6, 2, 9, 0, 0, 0, 0]),
        malformed("malformed_version_0_channels_0_no_block", &[0, 2, 0, 0]),
        malformed("malformed_version_2_mono_3_bytes", &[0, 5, 2, 1, 0, 0, 0]),
    ]
}

/// A channel number other than 1 to 8, which is looked at before the block's length.
fn channels() -> Vec<Case> {
    let case = |name, channels, len| {
        let block = vec![0; len];
        Case::new(name, record(channels, &block), "refused 1")
    };
    vec![
        case("channels_0", 0, 8),
        // 1, 2 and 8 to whoever looks at the low bits
        case("channels_9", 9, 8),
        case("channels_10", 10, 8),
        case("channels_130", 130, 8),
        case("channels_136", 136, 32),
        case("channels_9_36_bytes", 9, 36),
        case("channels_16", 16, 64),
        case("channels_255", 255, 8),
        case("channels_0_no_block", 0, 0),
        case("channels_9_3_bytes", 9, 3),
        case("channels_255_largest", 255, 4_096),
    ]
}

/// A block of a length that is not taken.
fn blocks() -> Vec<Case> {
    let case = |name: &str, channels, len| {
        let block = vec![0; len];
        Case::new(name, record(channels, &block), "refused 2")
    };
    let more = |channels: u8, len| {
        let name = format!("length_{channels}_channels_{len}");
        case(&name, channels, len)
    };
    vec![
        case("length_mono_0", 1, 0),
        case("length_mono_1", 1, 1),
        case("length_mono_2", 1, 2),
        case("length_mono_3", 1, 3),
        case("length_stereo_0", 2, 0),
        case("length_stereo_4", 2, 4),
        case("length_stereo_7", 2, 7),
        case("length_stereo_9", 2, 9),
        case("length_stereo_12", 2, 12),
        case("length_stereo_15", 2, 15),
        case("length_stereo_17", 2, 17),
        case("length_stereo_4092", 2, 4_092),
        case("length_stereo_4095", 2, 4_095),
        more(3, 0),
        more(3, 8),
        more(3, 11),
        more(3, 13),
        more(3, 16),
        more(3, 4_096),
        more(4, 12),
        more(4, 24),
        more(5, 16),
        more(5, 24),
        more(5, 4_096),
        more(6, 12),
        more(6, 32),
        more(6, 4_096),
        more(7, 24),
        more(7, 32),
        more(7, 4_096),
        more(8, 16),
        more(8, 31),
        more(8, 48),
        more(8, 4_092),
    ]
}

/// With an index above 88 besides, at which strict reading looks last.
fn indices() -> Vec<Case> {
    let block = [0, 0, 200, 0].repeat(4);
    let mut version_2 = record(1, &block[..12]);
    version_2[2] = 2;
    let of = |name, channels, len, line| Case::new(name, record(channels, &block[..len]), line);
    vec![
        malformed("malformed_version_2_index_200", &version_2),
        of("channels_9_index_200", 9, 12, "refused 1"),
        of("length_stereo_12_index_200", 2, 12, "refused 2"),
        of("length_3_channels_16_index_200", 3, 16, "refused 2"),
    ]
}
