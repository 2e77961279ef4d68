//! The check in plain C.

use crate::ffi::Answer;

extern "C" {
    fn plain_check(buffer: *const u8, size: usize, length: usize) -> u64;
}

pub fn check(buffer: &[u8], length: usize) -> Answer {
    // SAFETY: pointer and size are one slice, which `check.c` only reads.
    Answer(unsafe { plain_check(buffer.as_ptr(), buffer.len(), length) })
}
