//! What a program has to print for a record, whole.

use crate::loss::{loss, NONE};
use crate::oracle::{decode, repack};
use crate::strict::refuses;

/// What a program makes of an index above 88.
#[derive(Clone, Copy, PartialEq)]
pub enum Reading {
    /// `repack` refuses the block.
    Strict,
    /// `repack_lenient` reads it as 88, as the oracle does.
    Lenient,
}

pub fn answer(reading: Reading, input: &[u8]) -> String {
    let Some((channels, block)) = read(input) else {
        return refused(4);
    };
    let (mut before, mut changed) = (Vec::new(), 0);
    let mut new = vec![0; block.len()];
    match repack(&mut before, channels, block, &mut changed, &mut new) {
        0 if reading == Reading::Strict && refuses(channels, block) => refused(8),
        0 if changed == 0 => format!("same\n{}\n", hex(&new)),
        0 => {
            let mut after = vec![0; before.len()];
            assert_eq!(decode(channels, &new, &mut after), 0);
            format!("{}\n{}\n", told(&before, &after), hex(&new))
        }
        number => refused(number),
    }
}

/// The channel number and the block, if the record is well formed: two bytes big-endian, the length of all
/// that follows, 2 to 4,098; version byte 1; channel byte; the block.
fn read(input: &[u8]) -> Option<(u8, &[u8])> {
    let (&len, rest) = input.split_first_chunk()?;
    let (&[version, channels], block) = rest.split_first_chunk()?;
    let len = usize::from(u16::from_be_bytes(len));
    let formed = (2..=4_098).contains(&len) && rest.len() == len && version == 1;
    formed.then_some((channels, block))
}

fn refused(number: u8) -> String {
    format!("refused {number}\n")
}

fn told(before: &[i16], after: &[i16]) -> String {
    match loss(before, after) {
        (count, NONE, peak) => format!("changed {count} first - peak {peak}"),
        (count, first, peak) => format!("changed {count} first {first} peak {peak}"),
    }
}

fn hex(bytes: &[u8]) -> String {
    bytes.iter().map(|byte| format!("{byte:02X}")).collect()
}
