//! Answers as one number: the header's `gw_answer`.

use std::fmt;

/// A number and what is given, or of a refusal its place.
#[derive(Clone, Copy, PartialEq, Eq)]
pub struct Answer(pub u64);

impl Answer {
    /// An acceptance that gives this value.
    pub fn given(value: u64) -> Answer {
        Answer(value * 32)
    }

    /// A refusal with its place, or with what its number has instead.
    pub fn refused(number: u8, value: u64) -> Answer {
        Answer(value * 32 + u64::from(number))
    }

    /// The header's `gw_number`: 0, or the refusal's number.
    pub fn number(self) -> u32 {
        (self.0 % 32) as u32
    }

    /// The header's `gw_value`.
    pub fn value(self) -> u64 {
        self.0 / 32
    }

    pub fn is_refused(self) -> bool {
        self.number() != 0
    }
}

impl fmt::Debug for Answer {
    fn fmt(&self, to: &mut fmt::Formatter) -> fmt::Result {
        if self.is_refused() {
            write!(to, "refused {} {}", self.number(), self.value())
        } else {
            write!(to, "given {}", self.value())
        }
    }
}
