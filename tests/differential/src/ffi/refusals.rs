//! What a refusal's number stands for, and the version.

use super::raw;

/// `GW_WORDS_BYTES`: all words fit.
pub const WORDS_BYTES: usize = 128;

/// Writes the refusal's words and a zero byte; their length.
pub fn words(refusal: u32, text: &mut [u8; WORDS_BYTES]) -> usize {
    // SAFETY: the array has the size that the header asks for.
    unsafe { raw::gw_words(refusal, text.as_mut_ptr()) }
}

/// IBM's feedback code, or 0.
pub fn feedback(refusal: u32) -> u32 {
    // SAFETY: nothing is lent.
    unsafe { raw::gw_feedback(refusal) }
}

pub fn version() -> u32 {
    // SAFETY: nothing is lent.
    unsafe { raw::gw_version() }
}
