//! What a failing case prints of itself.

use crate::compare::given::Given;
use std::fmt::Write;
use std::thread;

/// Prints its text if a comparison fails while this is alive.
pub struct OnFailure<F: Fn() -> String>(pub F);

impl<F: Fn() -> String> Drop for OnFailure<F> {
    fn drop(&mut self) {
        if thread::panicking() {
            eprintln!("{}", (self.0)());
        }
    }
}

/// A hex dump, 32 bytes to a line.
pub fn hex(name: &str, bytes: &[u8]) -> String {
    let mut text = format!("{name}, {} bytes:", bytes.len());
    for (index, line) in bytes.chunks(32).enumerate() {
        // Writing to a string cannot fail.
        let _ = write!(text, "\n{:6} ", 32 * index);
        for byte in line {
            let _ = write!(text, "{byte:02x}");
        }
    }
    text
}

/// A message as a call was given it, and the other words for the same bytes.
pub fn given(given: &Given, other: &Given) -> String {
    let words = |given: &Given| {
        let (length, options) = (given.length, given.options());
        format!("length {length}, options {options:#x}")
    };
    let bytes = hex("buffer", given.buffer);
    format!("{}; or {}\n{bytes}", words(given), words(other))
}
