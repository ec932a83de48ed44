//! The rule of strict reading, which the oracle lacks: it reads an index above 88 as 88. tests/binding and
//! tests/oracle use this file too.

/// Whether strict reading refuses a block that the oracle takes: a channel has an index above 88 in its
/// header, of four bytes the third.
pub fn refuses(channels: u8, block: &[u8]) -> bool {
    let mut headers = block.chunks_exact(4).take(channels.into());
    headers.any(|header| header[2] > 88)
}
