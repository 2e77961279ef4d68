//! Reading and writing the 32-bit numbers, most significant byte first, and
//! writing bytes at a place.

/// The number at `at`, or none where fewer than four bytes are left there.
#[inline]
pub(crate) fn word(bytes: &[u8], at: usize) -> Option<u32> {
    let four = bytes.get(at..at.checked_add(4)?)?;
    Some(u32::from_be_bytes(four.try_into().ok()?))
}

/// Writes a number at `at`, as `put_bytes` does.
#[inline]
pub(crate) fn put_word(bytes: &mut [u8], at: usize, value: u32) {
    put_bytes(bytes, at, &value.to_be_bytes());
}

/// Writes bytes at `at`; those behind them stay. Callers have made sure of the
/// room; where there is none, nothing is written, so that no input can cause a
/// panic.
#[inline]
pub(crate) fn put_bytes(bytes: &mut [u8], at: usize, new: &[u8]) {
    let rest = bytes.get_mut(at..).unwrap_or_default();
    if let Some(part) = rest.get_mut(..new.len()) {
        part.copy_from_slice(new);
    }
}
