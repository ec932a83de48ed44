//! Short blocks: some that stay as they are, some of which bytes change and no sample moves, and some whose
//! samples move. Those that need luck were found by trying blocks at random.

use super::Case;
use crate::damage::record;

/// A name, the channel number, the block in hex, and the first line of the output. In a block the commas mean
/// nothing, and 7x34120500 is these four bytes seven times.
const BLOCKS: &str = "\
# the scope's example
example 1 F67F000007 changed 1 first 1 peak 1

same_mono_4_bytes 1 34120500 same
same_mono_4_bytes_all_0 1 00000000 same
same_mono_4_bytes_lowest 1 00805800 same
same_mono_5_bytes 1 18FC2C003A same
same_mono_hex_digits 1 CDAB2800012345 same
same_mono_the_numbers 1 0000000017 same
same_mono_nibble_8_at_step_8 1 0000010008 same
same_stereo_8_bytes 2 0100020003000400 same
same_stereo_16_bytes 2 3412050034120500319A0240319A0240 same
# d passes the end and m does not, so the encoder writes it
same_mono_clipped_above 1 FD7F140000 same
same_mono_clipped_below 1 0380140008 same

bytes_fourth_byte 1 34120501 changed 0 first - peak 0
bytes_fourth_byte_255 1 000000FF17 changed 0 first - peak 0
bytes_header_and_nibble 1 0000000708 changed 0 first - peak 0
bytes_nibble_8_at_step_7 1 0000000008 changed 0 first - peak 0
bytes_nibbles_8_at_step_7 1 000000008888 changed 0 first - peak 0
bytes_nibble_8_lowest 1 0080000080 changed 0 first - peak 0
bytes_negative_nibble_lowest 1 00800000F0 changed 0 first - peak 0
bytes_positive_nibble_highest 1 FF7F000010 changed 0 first - peak 0
bytes_stereo_left_fourth 2 0100020304000500 changed 0 first - peak 0
bytes_stereo_right_fourth 2 0100020004000506 changed 0 first - peak 0

moved_below 1 098000000F changed 1 first 1 peak 1
moved_behind_lowest 1 008000000F changed 1 first 2 peak 1
moved_nibble_8_lowest 1 00801E0008 changed 2 first 1 peak 16
moved_first_10 1 F67F00000000000070 changed 1 first 10 peak 1
# a left and a right, of which one clips or both
moved_stereo_left 2 F67F00003412050007000000319A0240 changed 1 first 2 peak 1
moved_stereo_right 2 34120500F67F0000319A024007000000 changed 1 first 3 peak 1
moved_stereo_both 2 F67F0000F67F00000700000007000000 changed 2 first 2 peak 1

peak_10 1 448017009E changed 1 first 2 peak 10
peak_100 1 008030006C changed 2 first 1 peak 100
peak_1000 1 BC7F2A000EF6 changed 2 first 3 peak 1000
peak_10000 1 00803900F4FE30 changed 4 first 2 peak 10000
peak_32766 1 BC7F53002BF7 changed 2 first 3 peak 32766
peak_32767 1 FF7F2B007F3A7FFF changed 6 first 3 peak 32767
# more than 16 bits hold with a sign; none larger than the last was found
peak_of_32768 1 44802D00FFFF95F7 changed 6 first 2 peak 32768
peak_of_52113 1 00803E00FF77 changed 4 first 1 peak 52113
peak_of_65494 1 008000007FFFFFFFFF776CE3 changed 11 first 2 peak 65494

# three channels and more, each with its own header, or all alike
same_3_channels_12_bytes 3 01000200,03000400,05000600 same
same_8_channels_32_bytes 8 01000200,03000400,05000600,07000800,09000A00,0B000C00,0D000E00,0F001000 same
same_6_channels_48_bytes 6 6x34120500,6x319A0240 same
bytes_6_channels_last_fourth 6 5x34120500,34120506 changed 0 first - peak 0
# one of them clips, or all do
moved_3_channels_last 3 2x34120500,F67F0000,2x319A0240,07000000 changed 1 first 5 peak 1
moved_5_channels_third 5 2x34120500,F67F0000,2x34120500,2x319A0240,07000000,2x319A0240 changed 1 first 7 peak 1
moved_8_channels_last 8 7x34120500,F67F0000,7x319A0240,07000000 changed 1 first 15 peak 1
moved_8_channels_all 8 8xF67F0000,8x07000000 changed 8 first 8 peak 1
peak_of_52113_4_channels 4 3x34120500,00803E00,3x319A0240,FF770000 changed 6 first 7 peak 52113

# the largest index that strict reading takes; and bytes behind the headers, which are no index
index_88 1 0000580019 same
index_88_stereo 2 0000580000005800 same
index_88_8_channels 8 8x00005800 same
index_mono_seventh_byte_255 1 000000000000FF same
index_3_channels_15th_byte_200 3 3x00002800,3x0000C800 same
index_7_channels_31st_byte_200 7 7x00002800,7x0000C800 same
";

/// The same, with an index above 88.
const HIGH: &str = "\
bytes_index_89 1 00005900 changed 0 first - peak 0
bytes_index_200 1 0000C800 changed 0 first - peak 0
bytes_index_128_with_nibbles 1 000080000891 changed 0 first - peak 0
bytes_index_255_with_nibbles 1 0000FF001980 changed 0 first - peak 0
bytes_stereo_left_index 2 0100590004000500 changed 0 first - peak 0
bytes_stereo_right_index 2 010002000400FF00 changed 0 first - peak 0
moved_index_200 1 4480C8099E changed 1 first 2 peak 3724
index_89_left 2 0000590000005800 changed 0 first - peak 0
index_89_right 2 0000580000005900 changed 0 first - peak 0
index_255 1 0000FF00 changed 0 first - peak 0
index_89_last_of_3 3 2x00005800,00005900 changed 0 first - peak 0
index_89_first_of_8 8 00005900,7x00005800 changed 0 first - peak 0
index_89_fifth_of_8 8 4x00005800,00005900,3x00005800 changed 0 first - peak 0
index_89_last_of_8 8 7x00005800,00005900 changed 0 first - peak 0
moved_index_200_last_of_3 3 2x00000000,4480C809,2x00000000,9E000000 changed 7 first 8 peak 3724
";

pub fn all() -> Vec<Case> {
    let high = cases(HIGH).map(Case::high);
    cases(BLOCKS).chain(high).collect()
}

fn cases(text: &'static str) -> impl Iterator<Item = Case> {
    let lines = text.lines();
    let lines = lines.filter(|line| !line.is_empty() && !line.starts_with('#'));
    lines.map(case)
}

fn case(line: &'static str) -> Case {
    let [name, channels, block, first] = line.splitn(4, ' ').collect::<Vec<_>>()[..] else {
        panic!("four fields: {line}");
    };
    let channels = channels.parse().expect("a channel number");
    Case::new(name, record(channels, &bytes(block)), first)
}

fn bytes(block: &str) -> Vec<u8> {
    let part = |part: &str| match part.split_once('x') {
        Some((times, hex)) => digits(hex).repeat(times.parse().expect("a number")),
        None => digits(part),
    };
    block.split(',').flat_map(part).collect()
}

fn digits(hex: &str) -> Vec<u8> {
    let pairs = hex.as_bytes().chunks(2);
    let text = pairs.map(|pair| std::str::from_utf8(pair).expect("digits are ASCII"));
    text.map(|pair| u8::from_str_radix(pair, 16).expect("two hex digits"))
        .collect()
}
