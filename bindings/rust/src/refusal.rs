//! The number that the library answers, as a `Result`.

use core::fmt;

/// Why a call that this crate adds was refused. Whatever the call would have written is as it was.
///
/// There may be more of them in a later version.
#[derive(Debug, Clone, Copy, PartialEq, Eq, Hash)]
#[non_exhaustive]
pub enum Refusal {
    /// 1: the channel number is not 1 to 8.
    Channels,
    /// 2: a length breaks the rules of MS blocks or of the loss report, or two lengths do not fit.
    Lengths,
    /// 3: of ima4, not 34 bytes a block, not 64 samples a block, or over 1,024 blocks.
    Blocks,
    /// 5: of an index, not 1 to 64 blocks a state, a length or a head that does not fit the run, or no
    /// such block.
    Index,
    /// 8: of MS blocks, a header with a step index above 88. The calls of [`lenient`](crate::lenient) never
    /// answer it.
    StepIndex,
}

impl Refusal {
    /// The number of the refusal over C, and in what the program `repack` prints.
    ///
    /// ```
    /// use sprettuhol::{repack_adpcm_ima_ms, Refusal};
    ///
    /// let refused = repack_adpcm_ima_ms(9, &[0; 4], &mut [0; 4]);
    /// assert_eq!(refused.map_err(Refusal::number), Err(1));
    /// let others = [Refusal::Lengths, Refusal::Blocks, Refusal::Index, Refusal::StepIndex];
    /// assert_eq!(others.map(Refusal::number), [2, 3, 5, 8]);
    /// assert_eq!(Refusal::Channels.to_string(), "the channel number is not 1 to 8");
    /// ```
    pub fn number(self) -> u8 {
        match self {
            Refusal::Channels => 1,
            Refusal::Lengths => 2,
            Refusal::Blocks => 3,
            Refusal::Index => 5,
            Refusal::StepIndex => 8,
        }
    }
}

impl fmt::Display for Refusal {
    fn fmt(&self, to: &mut fmt::Formatter<'_>) -> fmt::Result {
        to.write_str(match self {
            Refusal::Channels => "the channel number is not 1 to 8",
            Refusal::Lengths => "a length is not allowed, or two lengths do not fit each other",
            Refusal::Blocks => "not 34 bytes and 64 samples a block, or over 1,024 blocks",
            Refusal::Index => "not 1 to 64 blocks a state, an unfitting index, or no such block",
            Refusal::StepIndex => "a header has a step index above 88",
        })
    }
}

impl core::error::Error for Refusal {}

/// Why a call on an MS block was refused. Whatever the call would have written is as it was.
///
/// audio-codec-algorithms has the first two variants alone. The third one breaks a `match` on these two, and
/// that is on purpose: the compiler tells whoever matches on all errors that a block can now be refused for
/// its index.
///
/// ```
/// use sprettuhol::Error;
///
/// fn cause(error: Error) -> &'static str {
///     match error {
///         Error::InvalidChannels => "channels",
///         Error::InvalidBufferSize => "length",
///         Error::InvalidStepIndex => "index",
///     }
/// }
/// assert_eq!(cause(Error::InvalidStepIndex), "index");
/// ```
///
/// Without the third arm it does not compile:
///
/// ```compile_fail,E0004
/// use sprettuhol::Error;
///
/// fn cause(error: Error) -> &'static str {
///     match error {
///         Error::InvalidChannels => "channels",
///         Error::InvalidBufferSize => "length",
///     }
/// }
/// ```
#[derive(Debug)]
pub enum Error {
    /// The number of channels is not 1 to 8.
    InvalidChannels,

    /// A length is not allowed, or two lengths do not fit each other.
    InvalidBufferSize,

    /// A header has a step index above 88. The calls of [`lenient`](crate::lenient) never answer it.
    InvalidStepIndex,
}

impl fmt::Display for Error {
    fn fmt(&self, to: &mut fmt::Formatter<'_>) -> fmt::Result {
        to.write_str(match self {
            Error::InvalidChannels => "invalid number of channels",
            Error::InvalidBufferSize => "invalid buffer size",
            Error::InvalidStepIndex => "invalid step index",
        })
    }
}

impl core::error::Error for Error {}

/// Channel numbers and step indices have an error of their own. All else is a buffer's.
impl From<Refusal> for Error {
    fn from(refusal: Refusal) -> Error {
        match refusal {
            Refusal::Channels => Error::InvalidChannels,
            Refusal::Lengths | Refusal::Blocks | Refusal::Index => Error::InvalidBufferSize,
            Refusal::StepIndex => Error::InvalidStepIndex,
        }
    }
}

/// What the library's number says.
pub(crate) fn answer(number: u8) -> Result<(), Refusal> {
    match number {
        0 => Ok(()),
        1 => Err(Refusal::Channels),
        3 => Err(Refusal::Blocks),
        5 => Err(Refusal::Index),
        8 => Err(Refusal::StepIndex),
        // 2. It is proved that there is no other number. If there were, nobody could rely on what was
        // written, so it must not pass for done
        _ => Err(Refusal::Lengths),
    }
}

#[cfg(test)]
mod tests {
    use super::{answer, Error, Refusal};

    #[test]
    fn each_number_is_its_own_refusal() {
        assert_eq!(answer(0), Ok(()));
        for number in [1, 2, 3, 5, 8] {
            assert_eq!(answer(number).map_err(Refusal::number), Err(number));
        }
    }

    #[test]
    fn no_other_number_passes_for_done() {
        for number in (4..=255).filter(|number| ![5, 8].contains(number)) {
            assert_eq!(answer(number), Err(Refusal::Lengths), "{number}");
        }
    }

    #[test]
    fn refusals_are_errors() {
        assert!(matches!(Refusal::Channels.into(), Error::InvalidChannels));
        for refusal in [Refusal::Lengths, Refusal::Blocks, Refusal::Index] {
            assert!(matches!(refusal.into(), Error::InvalidBufferSize));
        }
        assert!(matches!(Refusal::StepIndex.into(), Error::InvalidStepIndex));
    }
}
