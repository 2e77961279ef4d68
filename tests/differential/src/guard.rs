//! Memory between two pages that nobody may touch: one byte read or written
//! outside of what is lent ends the program.

use std::ffi::{c_int, c_long, c_void};
use std::ops::{Deref, DerefMut};
use std::{ptr, slice};

// The C library is linked by Rust's own anyway.
extern "C" {
    fn mmap(
        at: *mut c_void,
        size: usize,
        may: c_int,
        how: c_int,
        file: c_int,
        from: c_long,
    ) -> *mut c_void;
    fn mprotect(at: *mut c_void, size: usize, may: c_int) -> c_int;
    fn munmap(at: *mut c_void, size: usize) -> c_int;
}

const NOTHING: c_int = 0;
const READ_AND_WRITE: c_int = 3;
const PRIVATE_AND_EMPTY: c_int = 0x22;
/// Of such memory only what is written takes any.
const UNRESERVED: c_int = PRIVATE_AND_EMPTY | 0x4000;

/// A multiple of every page size in use.
const PAGE: usize = 65_536;

/// So many bytes can be lent.
const ROOM: usize = 16 * PAGE;

/// An area that stays until the program ends.
pub struct Guarded {
    first: *mut u8,
}

// SAFETY: nobody else has the area's address.
unsafe impl Send for Guarded {}

/// At which end of the area bytes lie.
#[derive(Clone, Copy, Debug)]
pub enum Edge {
    Low,
    High,
}

pub const EDGES: [Edge; 2] = [Edge::Low, Edge::High];

impl Default for Guarded {
    fn default() -> Guarded {
        Guarded::new()
    }
}

impl Guarded {
    pub fn new() -> Guarded {
        let size = ROOM + 2 * PAGE;
        // SAFETY: this asks for fresh memory at no certain place.
        let base = unsafe { mmap(ptr::null_mut(), size, NOTHING, PRIVATE_AND_EMPTY, -1, 0) };
        assert!(base as isize != -1, "no memory");
        let first = base.cast::<u8>().wrapping_add(PAGE);
        // SAFETY: the part lies in the memory that was just given to us.
        let failed = unsafe { mprotect(first.cast(), ROOM, READ_AND_WRITE) };
        assert_eq!(failed, 0, "no access");
        Guarded { first }
    }

    /// The bytes, copied to lie directly at the edge.
    pub fn lend(&mut self, bytes: &[u8], edge: Edge) -> &mut [u8] {
        assert!(bytes.len() <= ROOM);
        let offset = match edge {
            Edge::Low => 0,
            Edge::High => ROOM - bytes.len(),
        };
        // SAFETY: the slice lies in the part that may be read and written, is
        // zero or what was copied there before, and is borrowed with `self`.
        let lent = unsafe { slice::from_raw_parts_mut(self.first.add(offset), bytes.len()) };
        lent.copy_from_slice(bytes);
        lent
    }
}

/// Memory of a size that 32 bits don't hold, which is there to be lent, not to be
/// read. It is given back when it is dropped.
pub struct Huge {
    base: *mut u8,
    size: usize,
}

impl Huge {
    /// So much memory as is asked for, with these bytes at its start and zeros
    /// behind.
    pub fn new(bytes: &[u8], size: usize) -> Huge {
        assert!(bytes.len() <= size);
        // SAFETY: this asks for fresh memory at no certain place.
        let base = unsafe { mmap(ptr::null_mut(), size, READ_AND_WRITE, UNRESERVED, -1, 0) };
        assert!(base as isize != -1, "no memory");
        let base = base.cast();
        let mut huge = Huge { base, size };
        huge[..bytes.len()].copy_from_slice(bytes);
        huge
    }
}

impl Deref for Huge {
    type Target = [u8];

    fn deref(&self) -> &[u8] {
        // SAFETY: all of it was given to us, is zero or what was written there,
        // and is borrowed with `self`.
        unsafe { slice::from_raw_parts(self.base, self.size) }
    }
}

impl DerefMut for Huge {
    fn deref_mut(&mut self) -> &mut [u8] {
        // SAFETY: as above, and nobody else has it.
        unsafe { slice::from_raw_parts_mut(self.base, self.size) }
    }
}

impl Drop for Huge {
    fn drop(&mut self) {
        // SAFETY: this is what was given to us, and nothing borrows it any more.
        let failed = unsafe { munmap(self.base.cast(), self.size) };
        assert_eq!(failed, 0, "not given back");
    }
}
