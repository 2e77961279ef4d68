//! Places and depths for the walk one structure at a time.

use super::damage_embedded::claimed_end;
use super::layout::bytes_before;
use super::lend::Lent;
use super::random::Random;
use crate::check::rows;
use crate::layout::Form;

/// A place and a depth: mostly where a structure stands, but also inside the
/// headers or a structure, around the PCF part's end, in the user data, at the
/// message's end, and far behind it.
pub fn any_place(random: &mut Random, lent: &Lent) -> (usize, u32) {
    let length = lent.length.min(lent.buffer.len());
    let end = match lent.layout.form {
        Form::Plain => length,
        Form::Embedded => claimed_end(&lent.buffer[..length]),
    };
    let first = bytes_before(lent.layout) + 36;
    let place = match random.below(18) {
        0..=7 => structure(random, lent).unwrap_or(first),
        8 => 4 * random.below(length / 4 + 2),
        9 => random.below(length + 2),
        10 => random.pick(&[0, 12, 12, 12, 12, first - 36]),
        11 => first - 36,
        12 => random.below(first),
        13 => end.saturating_sub(random.below(24)),
        14 => end,
        15 => random.between(end, length),
        16 => length.saturating_add(random.below(24)),
        _ => usize::MAX - random.below(24),
    };
    let depth = match random.below(8) {
        0 => 0,
        1 => u32::MAX,
        2 => random.word(),
        3 => 9,
        _ => random.between(1, 8) as u32,
    };
    (place, depth)
}

fn structure(random: &mut Random, lent: &Lent) -> Option<usize> {
    let rows = rows(&lent.buffer, lent.length, lent.layout).ok()?;
    rows.get(random.below(rows.len())).map(|row| row.place)
}
