//! Sound structures of the ten types that are no groups.

use super::build::Piece;
use super::random::Random;
use super::text::{padding, text};

const LEAVES: [u32; 10] = [3, 4, 5, 6, 9, 13, 14, 15, 23, 25];

/// Fixed part of each type.
fn fixed_part(kind: u32) -> usize {
    match kind {
        6 | 14 | 23 => 24,
        4 | 13 | 15 => 20,
        _ => 16,
    }
}

/// A sound structure of a random type in at most `room` bytes (16 at least).
pub(super) fn leaf(random: &mut Random, parameter: u32, room: usize) -> Piece {
    let mut kind = random.pick(&LEAVES);
    if fixed_part(kind) > room {
        kind = 3;
    }
    let spare = room.saturating_sub(fixed_part(kind));
    let most = if random.chance(4) {
        spare
    } else {
        spare.min(28)
    };
    // Whole words, so that data and padding together end on a multiple of 4.
    let area = 4 * random.below(most / 4 + 1);
    match kind {
        4 | 9 | 14 | 15 => with_data(random, kind, parameter, area),
        5 => list(random, kind, parameter, area, 4),
        25 => list(random, kind, parameter, area, 8),
        6 => string_list(random, parameter, area),
        13 => Piece::new(13, parameter, &[random.word(), random.word()], &[], &[]),
        23 => {
            let fields = [random.word(), random.word(), random.word()];
            Piece::new(23, parameter, &fields, &[], &[])
        }
        _ => Piece::integer(parameter, random.word()),
    }
}

/// Strings, byte strings and their filters: data and padding fill the area.
fn with_data(random: &mut Random, kind: u32, parameter: u32, area: usize) -> Piece {
    let length = if random.chance(70) {
        area.saturating_sub(random.below(4))
    } else {
        random.below(area + 1)
    };
    padded(random, kind, parameter, length, area - length)
}

/// The same with so many bytes of data and so many of padding.
fn padded(random: &mut Random, kind: u32, parameter: u32, length: usize, behind: usize) -> Piece {
    let data = text(random, length);
    let padding = padding(random, behind);
    let length = length as u32;
    let (operator, charset) = (random.word(), random.pick(&[0, 819, 1208, u32::MAX]));
    match kind {
        4 => Piece::new(4, parameter, &[charset, length], &data, &padding),
        9 => Piece::new(9, parameter, &[length], &data, &padding),
        14 => Piece::new(14, parameter, &[operator, charset, length], &data, &padding),
        _ => Piece::new(15, parameter, &[operator, length], &data, &padding),
    }
}

/// A string with so many bytes of data; the padding is the shortest or some
/// words longer.
pub(super) fn string(random: &mut Random, parameter: u32, length: usize) -> Piece {
    let shortest = length.wrapping_neg() % 4;
    let more = random.pick(&[0, 0, 0, 4, 8]);
    padded(random, 4, parameter, length, shortest + more)
}

fn list(random: &mut Random, kind: u32, parameter: u32, area: usize, each: usize) -> Piece {
    let count = area / each;
    let data = random.bytes(count * each);
    Piece::new(kind, parameter, &[count as u32], &data, &[])
}

/// Count x StringLength bytes of data; one factor may be 0 and the other huge.
fn string_list(random: &mut Random, parameter: u32, area: usize) -> Piece {
    let huge = random.pick(&[i32::MAX as u32, 65_536, 1, 0]);
    let (count, length) = match random.below(8) {
        0 => (0, huge),
        1 => (huge, 0),
        _ => {
            let count = random.between(1, 4);
            (count as u32, random.below(area / count + 1) as u32)
        }
    };
    let used = (count as usize).saturating_mul(length as usize);
    let data = text(random, used);
    let padding = padding(random, area - used);
    let fields = [random.word(), count, length];
    Piece::new(6, parameter, &fields, &data, &padding)
}

/// A string of exactly `size` bytes: a multiple of 4, 20 at least.
pub(super) fn filler(random: &mut Random, parameter: u32, size: usize) -> Piece {
    with_data(random, 4, parameter, size.saturating_sub(20) / 4 * 4)
}
