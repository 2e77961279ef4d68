//! Check, tally, listing, and one structure at a time.

use super::answer::Answer;
use super::lend::start;
use super::raw::{self, Row};

/// A tally has one count for each type 0 to 26.
pub const KINDS: usize = 27;

/// `GW_LISTING_BYTES`: every listing fits.
pub const LISTING_BYTES: usize = 131_072;

/// The number of structures, or 1, 18, 2 to 5.
pub fn check(buffer: &[u8], length: usize, options: u32) -> Answer {
    // SAFETY: pointer and size are one slice, which is only read.
    Answer(unsafe { raw::gw_check(start(buffer), buffer.len(), length, options) })
}

/// Answers as the check does and writes the counts.
pub fn tally(buffer: &[u8], length: usize, options: u32, counts: &mut [u32; KINDS]) -> Answer {
    let (from, size) = (start(buffer), buffer.len());
    // SAFETY: pointer and size are one slice, which is only read; the array has
    // the 27 numbers that are written, and as `&mut` it lies apart.
    Answer(unsafe { raw::gw_tally(from, size, length, options, counts.as_mut_ptr()) })
}

/// The text's length, or 1, 18, 2 to 5.
pub fn list(buffer: &[u8], length: usize, options: u32, text: &mut [u8; LISTING_BYTES]) -> Answer {
    let (from, size) = (start(buffer), buffer.len());
    // SAFETY: pointer and size are one slice, which is only read; the array has
    // the size that the header asks for, and as `&mut` it lies apart.
    Answer(unsafe { raw::gw_list(from, size, length, options, text.as_mut_ptr()) })
}

/// 0 and the row at the place, or 1, 18, 3 or 4.
pub fn step(
    buffer: &[u8],
    length: usize,
    options: u32,
    place: usize,
    depth: u32,
    row: &mut Row,
) -> Answer {
    let (from, size) = (start(buffer), buffer.len());
    // SAFETY: pointer and size are one slice, which is only read; the row is
    // laid out as in C, and as `&mut` it lies apart.
    Answer(unsafe { raw::gw_step(from, size, length, options, place, depth, row) })
}
