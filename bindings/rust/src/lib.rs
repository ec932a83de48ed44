//! Proved audio codecs: G.711 mu-law and A-law, and IMA ADPCM by the nibble, in ima4 blocks and in MS
//! blocks. 'MS' is IMA ADPCM as WAV files have it, format 0x0011; it is not Microsoft ADPCM, format 0x0002.
//!
//! ```
//! use sprettuhol::decode_adpcm_ima_ms;
//!
//! let mut samples = [0; 3];
//! decode_adpcm_ima_ms(&[0, 0, 0, 0, 0x17], false, &mut samples)?;
//! assert_eq!(samples, [0, 11, 17]);
//! # Ok::<(), sprettuhol::Error>(())
//! ```
//!
//! # In the place of audio-codec-algorithms
//!
//! What that crate, in version 0.8.1, has of G.711 and of IMA ADPCM is here by the same names and with
//! the same signatures. A caller changes one line of Cargo.toml:
//!
//! ```toml
//! audio-codec-algorithms = { package = "sprettuhol", path = ".../bindings/rust" }
//! ```
//!
//! Everything compiles as before, unless the caller matches on all variants of [`Error`], which has a third
//! one. Every call answers as before, but for two:
//!
//! - [`decode_adpcm_ima_ms`] refuses a block with a step index above 88 in a header, which that crate reads as
//!   88. To keep the old behaviour, name [`lenient::decode_adpcm_ima_ms`].
//! - [`encode_adpcm_ima_ms`] takes three to eight states too, as many as channels. That crate takes one or two,
//!   and refuses all other numbers of them.
//!
//! Its two calls that turn a code of one law into one of the other are left behind.
//!
//! # What is added
//!
//! Runs of ima4 blocks ([`decode_adpcm_ima_ima4_run`], [`encode_adpcm_ima_ima4_run`]), an index of a run
//! ([`index_adpcm_ima_ima4`], [`index_bytes`], [`reindex_adpcm_ima_ima4`]) and decoding by it from any
//! block on ([`decode_adpcm_ima_ima4_from`]), decoding of MS blocks of up to eight channels
//! ([`decode_adpcm_ima_ms_channels`], [`ms_samples`]), repacking of MS blocks ([`repack_adpcm_ima_ms`]) and
//! the loss report ([`loss_report`]). They answer a [`Refusal`] where the ported calls answer an [`Error`].
//!
//! The three calls of [`lenient`] take MS blocks with a step index above 88, which those of the same names
//! here refuse. The constants are those that the C header has as macros.
//!
//! The calls of [`metered`] also count clipped steps, those whose exact sum is no 16-bit number. Their
//! [`State`](metered::State) has the count as a third number. [`AdpcmImaState`] stays as that crate has it, so
//! the calls at the root do not tell the count.
//!
//! # What is proved
//!
//! The library behind these functions is: every call ends, is defined for all inputs, and answers what
//! a short definition says. It looks at every length, channel number and step index itself; this crate
//! hands them on as they are, and turns the number that comes back into a `Result`. What is refused changes
//! nothing, no buffer and no state. This crate itself is not proved; all that is unsafe in it is one file,
//! the calls over the C interface.
//!
//! # Linking
//!
//! The build script links libsprettuhol.a from target/staticlib of the repository, where tools/archive
//! writes it, or from the folder whose whole path is in the environment variable `SPRETTUHOL_LIB_DIR`.

#![no_std]
#![deny(missing_docs, unsafe_code)]

#[allow(unsafe_code)]
mod ffi;

pub mod lenient;
pub mod metered;

mod adpcm_ima;
mod g711;
mod ima4;
mod loss;
mod ms;
mod refusal;
mod repacking;
mod seek;

pub use adpcm_ima::{decode_adpcm_ima, encode_adpcm_ima, AdpcmImaState};
pub use g711::{decode_alaw, decode_ulaw, encode_alaw, encode_ulaw};
pub use ima4::{decode_adpcm_ima_ima4, encode_adpcm_ima_ima4};
pub use ima4::{decode_adpcm_ima_ima4_run, encode_adpcm_ima_ima4_run};
pub use ima4::{IMA4_BLOCK_BYTES, IMA4_BLOCK_SAMPLES, IMA4_MOST_BLOCKS};
pub use loss::{loss_report, Loss, LOSS_MOST_SAMPLES};
pub use ms::{decode_adpcm_ima_ms, decode_adpcm_ima_ms_channels, encode_adpcm_ima_ms};
pub use ms::{ms_samples, MS_MOST_BYTES, MS_MOST_CHANNELS};
pub use refusal::{Error, Refusal};
pub use repacking::repack_adpcm_ima_ms;
pub use seek::{decode_adpcm_ima_ima4_from, index_bytes};
pub use seek::{index_adpcm_ima_ima4, reindex_adpcm_ima_ima4};

#[cfg(test)]
mod tests {
    #[test]
    fn the_library_is_of_this_version() {
        let version = crate::ffi::version();
        let numbers = [version / 10_000, version / 100 % 100, version % 100];
        let parts = env!("CARGO_PKG_VERSION")
            .split('.')
            .map(|part| part.parse::<u32>());
        assert!(parts.eq(numbers.map(Ok)), "{numbers:?}");
    }
}

// Every piece of Rust in the two documents is run with the examples.
#[cfg(doctest)]
#[doc = include_str!("../../../docs/GUIDE.md")]
pub struct Guide;
#[cfg(doctest)]
#[doc = include_str!("../../../README.md")]
pub struct Readme;
