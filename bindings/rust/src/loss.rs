//! What differs between two runs of samples.

use crate::ffi;
use crate::refusal::{answer, Refusal};

/// The most samples that a run may have in a loss report, as many as the longest MS block has.
pub const LOSS_MOST_SAMPLES: usize = 131_063;

/// What differs between two runs of samples of equal length.
#[derive(Debug, Clone, Copy, PartialEq, Eq)]
pub struct Loss {
    /// How many places differ.
    pub count: u32,
    /// The first of them, counted from 0, or `None` if there is none.
    pub first: Option<u32>,
    /// The largest absolute difference, 0 if there is none. It is up to 65,535, and must never be stored in a
    /// signed 16-bit number.
    pub peak: u16,
}

/// Reports what differs between two runs of samples of equal length, 0 to 131,063.
///
/// # Errors
///
/// [`Refusal::Lengths`], if one run is longer than the other, or both are longer than that.
///
/// ```
/// use sprettuhol::{loss_report, Loss, Refusal, LOSS_MOST_SAMPLES};
///
/// let moved = Loss { count: 2, first: Some(1), peak: 3 };
/// assert_eq!(loss_report(&[0, 11, 17], &[0, 10, 20]), Ok(moved));
///
/// let same = Loss { count: 0, first: None, peak: 0 };
/// assert_eq!(loss_report(&[0, 11, 17], &[0, 11, 17]), Ok(same));
///
/// assert_eq!(loss_report(&[i16::MIN], &[i16::MAX])?.peak, 65_535);
/// assert_eq!(loss_report(&[0, 11, 17], &[0, 11]), Err(Refusal::Lengths));
/// let long = [0; LOSS_MOST_SAMPLES + 1];
/// assert_eq!(loss_report(&long, &long), Err(Refusal::Lengths));
/// # Ok::<(), Refusal>(())
/// ```
#[inline]
pub fn loss_report(before: &[i16], after: &[i16]) -> Result<Loss, Refusal> {
    let (mut count, mut first, mut peak) = (0, 0, 0);
    let number = ffi::loss(before, after, &mut count, &mut first, &mut peak);
    answer(number)?;
    // over C no place at all is UINT32_MAX, which is far behind the last that a run can have
    let first = Some(first).filter(|&place| place != u32::MAX);
    Ok(Loss { count, first, peak })
}
