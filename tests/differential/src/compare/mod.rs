//! One call on both sides: the library's answer and every byte that it leaves
//! have to be the decoder's. A difference panics with the function's name, the
//! library's answer (left) and the decoder's (right).
//!
//! Each comparison gives what was answered, so that callers can count it.

pub mod bytes;
pub mod compose;
pub mod events;
pub mod expect;
pub mod fill;
pub mod given;
pub mod numbers;
pub mod parts;
pub mod structures;
pub mod text;
pub mod traces;
