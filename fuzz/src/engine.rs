//! The functions that libFuzzer calls.

use crate::case::Case;
use crate::compare::Bench;
use crate::layout::Input;
use crate::mutate::mutate;
use decoder::generate::Random;
use std::ffi::{c_char, c_int, c_uint};
use std::sync::Mutex;
use std::{panic, process, slice};

extern "C" {
    fn LLVMFuzzerMutate(data: *mut u8, size: usize, most: usize) -> usize;
    fn atexit(function: extern "C" fn()) -> c_int;
}

/// The engine has one thread; the lock is only for the compiler's sake.
static BENCH: Mutex<Option<Bench>> = Mutex::new(None);

/// Tells at the end how often each answer came.
extern "C" fn tell() {
    if let Some(bench) = BENCH.lock().ok().as_deref().and_then(Option::as_ref) {
        eprint!("answers:\n{}", bench.spread);
    }
}

/// # Safety
///
/// The engine calls this once, before anything else.
#[no_mangle]
pub unsafe extern "C" fn LLVMFuzzerInitialize(_: *mut c_int, _: *mut *mut *mut c_char) -> c_int {
    // SAFETY: the function that is registered takes nothing and keeps nothing.
    unsafe { atexit(tell) }
}

/// A difference is a panic, which ends the program; the engine then keeps the
/// input.
///
/// # Safety
///
/// `data` has `size` bytes.
#[no_mangle]
pub unsafe extern "C" fn LLVMFuzzerTestOneInput(data: *const u8, size: usize) -> c_int {
    // SAFETY: as the engine says.
    let bytes = unsafe { lent(data, size) };
    // Caught here, so that what a failure tells of itself is told.
    if panic::catch_unwind(|| compare(bytes)).is_err() {
        process::abort();
    }
    0
}

fn compare(bytes: &[u8]) {
    let mut bench = BENCH.lock().expect("no panic before");
    let case = Case::new(&Input::parse(bytes));
    bench.get_or_insert_with(Bench::default).compare(&case);
}

/// # Safety
///
/// `data` has room for `most` bytes and begins with an input of `size` bytes.
#[no_mangle]
pub unsafe extern "C" fn LLVMFuzzerCustomMutator(
    data: *mut u8,
    size: usize,
    most: usize,
    seed: c_uint,
) -> usize {
    // SAFETY: as the engine says.
    let bytes = unsafe { lent(data, size) };
    let mut random = Random::new(u64::from(seed));
    let mut mutated = mutate(bytes, &mut random, &mut |bytes| engine(bytes, most));
    mutated.truncate(most);
    // SAFETY: there is room for this much, and the vector lies apart.
    unsafe { data.copy_from_nonoverlapping(mutated.as_ptr(), mutated.len()) };
    mutated.len()
}

/// The engine's own change, of at most so many bytes.
fn engine(bytes: &[u8], most: usize) -> Vec<u8> {
    let mut room = bytes.to_vec();
    let used = room.len().min(most);
    room.resize(most, 0);
    // SAFETY: there is room for `most` bytes and `used` of them are the input.
    let size = unsafe { LLVMFuzzerMutate(room.as_mut_ptr(), used, most) };
    room.truncate(size);
    room
}

/// # Safety
///
/// `data` has `size` bytes, or `size` is 0.
unsafe fn lent<'a>(data: *const u8, size: usize) -> &'a [u8] {
    if size == 0 {
        return &[];
    }
    // SAFETY: as the caller says.
    unsafe { slice::from_raw_parts(data, size) }
}
