//! The oracle's encoder on all samples from one state, held against answers in the form that the proved
//! `sweep_encode` gives them.

use crate::nibble::{oracle, After};

/// The answer to the sample k - 32768 stands at k.
pub type Answers = [u32; 65536];

pub fn sample_at(k: usize) -> i16 {
    (k as i32 - 32768) as i16
}

/// The oracle's answer as one number: nibble + 256 * next index + 65536 * (next predictor + 32768).
#[inline(always)]
pub fn oracles(sample: i16, predictor: i16, index: u8) -> u32 {
    let (nibble, predictor, index) = oracle::encode((sample, predictor, index));
    let predictor = (i32::from(predictor) + 32768) as u32;
    u32::from(nibble) + 256 * u32::from(index) + 65536 * predictor
}

pub fn unpacked(answer: u32) -> After<u8> {
    let predictor = (answer >> 16) as i32 - 32768;
    (answer as u8, predictor as i16, (answer >> 8) as u8)
}

/// How many of the answers are not the oracle's.
pub fn differ(predictor: i16, index: u8, answers: &Answers) -> u32 {
    #[cfg(target_arch = "x86_64")]
    {
        // SAFETY of both: the processor has what the function is compiled for.
        if is_x86_feature_detected!("avx512bw") && is_x86_feature_detected!("avx512vl") {
            return unsafe { differ_avx512(predictor, index, answers) };
        }
        if is_x86_feature_detected!("avx2") {
            return unsafe { differ_avx2(predictor, index, answers) };
        }
    }
    differ_anywhere(predictor, index, answers)
}

/// The oracle is inlined, so that the compiler takes several samples at once.
#[inline(always)]
fn differ_anywhere(predictor: i16, index: u8, answers: &Answers) -> u32 {
    let mut differ = 0;
    for (k, &answer) in answers.iter().enumerate() {
        differ += u32::from(answer != oracles(sample_at(k), predictor, index));
    }
    differ
}

// The same loop for wider registers takes a half of the time, and a third.

#[cfg(target_arch = "x86_64")]
#[target_feature(enable = "avx2")]
fn differ_avx2(predictor: i16, index: u8, answers: &Answers) -> u32 {
    differ_anywhere(predictor, index, answers)
}

#[cfg(target_arch = "x86_64")]
#[target_feature(enable = "avx512bw,avx512vl")]
fn differ_avx512(predictor: i16, index: u8, answers: &Answers) -> u32 {
    differ_anywhere(predictor, index, answers)
}
