//! The loss report by a plain loop, for the oracle has none. bench/ and tests/oracle use this file too.

/// How many places differ, the first of them or `NONE`, and the largest difference.
pub type Loss = (u32, u32, u16);

/// No place is so far behind.
pub const NONE: u32 = u32::MAX;

/// Of two runs of equal length.
#[inline(always)]
pub fn loss(before: &[i16], after: &[i16]) -> Loss {
    let (mut count, mut first, mut peak) = (0, NONE, 0);
    for (place, (&old, &new)) in (0..).zip(before.iter().zip(after)) {
        if old != new {
            count += 1;
            first = first.min(place);
            peak = peak.max(old.abs_diff(new));
        }
    }
    (count, first, peak)
}
