//! The lent text buffer of the listing.

use super::bytes::same;
use super::given::Given;
use crate::ffi::{self, Answer, LISTING_BYTES};
use decoder::generate::Random;

/// A text buffer and what it was filled with.
pub struct Text {
    lent: Box<[u8; LISTING_BYTES]>,
    filled: Box<[u8; LISTING_BYTES]>,
}

impl Default for Text {
    fn default() -> Text {
        Text::new()
    }
}

impl Text {
    /// Filled with bytes that no listing has in this order.
    pub fn new() -> Text {
        let filled = Random::new(1).bytes(LISTING_BYTES).into_boxed_slice();
        let filled: Box<[u8; LISTING_BYTES]> = filled.try_into().expect("as many bytes");
        Text {
            lent: filled.clone(),
            filled,
        }
    }

    /// Lists the message and demands of the whole buffer that it has the
    /// wanted text (none of a refusal) and behind it what was there before.
    pub fn list(&mut self, given: Given, wanted: &[u8]) -> Answer {
        let options = given.options();
        let answer = ffi::list(given.buffer, given.length, options, &mut self.lent);
        let (text, behind) = self.lent.split_at(wanted.len());
        same("text", text, wanted);
        same("text buffer", behind, &self.filled[wanted.len()..]);
        // Only this much is to be filled again.
        self.lent[..wanted.len()].copy_from_slice(&self.filled[..wanted.len()]);
        answer
    }
}
