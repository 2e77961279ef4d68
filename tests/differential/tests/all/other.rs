//! The same bytes under other words: another length, or the other form.

use crate::spare::spare;
use decoder::generate::{other_layout, Random};
use differential::compare::given::Given;

/// A length at an edge, or one that cuts the message anywhere.
fn other_length(random: &mut Random, size: usize) -> usize {
    match random.below(8) {
        0 => random.pick(&[0, 35, 36, 37, 67, 68, 69]),
        1 => random.pick(&[65_536, 65_537, 1 << 31, 1 << 32]),
        2 => usize::MAX - random.below(72),
        3 => size + random.below(4),
        _ => random.below(size + 1),
    }
}

/// Often another length, else the form that the message was not to be read in;
/// now and then both.
pub fn other_words<'a>(random: &mut Random, given: Given<'a>) -> Given<'a> {
    let (length, form) = match random.below(10) {
        0..=6 => (true, false),
        7..=8 => (false, true),
        _ => (true, true),
    };
    let mut other = given;
    if length {
        other.length = other_length(random, given.buffer.len());
    }
    if form {
        other.layout = other_layout(given.layout);
    }
    other.spare = spare(random);
    other
}
