//! Where a slice starts, for C.

use std::ptr;

/// The slice's start. An empty slice is lent as a null pointer, which the
/// header allows, so that every run with an empty buffer tries just that.
pub(super) fn start(bytes: &[u8]) -> *const u8 {
    if bytes.is_empty() {
        ptr::null()
    } else {
        bytes.as_ptr()
    }
}

/// The same for a slice that may be written.
pub(super) fn start_mut(bytes: &mut [u8]) -> *mut u8 {
    if bytes.is_empty() {
        ptr::null_mut()
    } else {
        bytes.as_mut_ptr()
    }
}
