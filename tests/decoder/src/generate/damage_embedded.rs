//! Damage to embedded messages: each field of the embedded header, cuts on
//! both sides of the PCF part's end, and damage inside the part.

use super::damage::{damage_part, flip, spoil_header};
use super::random::Random;
use crate::word::{put_bytes, put_word, word};

/// Damages the bytes of an embedded message in one way.
pub(super) fn damage_embedded(random: &mut Random, bytes: &mut Vec<u8>) {
    match random.below(24) {
        0 => spoil_identifier(random, bytes),
        1 => spoil_version(random, bytes),
        2..=4 => spoil_struc_length(random, bytes),
        5 => spoil_sender_fields(random, bytes),
        6 => cut(random, bytes),
        7 => flip(random, bytes),
        8 => spoil_header(random, bytes.get_mut(32..).unwrap_or_default()),
        _ => damage_inside(random, bytes),
    }
}

/// The PCF part's end by the message's own word, but inside the bytes.
pub(super) fn claimed_end(bytes: &[u8]) -> usize {
    let end = word(bytes, 8).unwrap_or_default() as usize;
    end.min(bytes.len())
}

/// One byte of the four, or other identifiers: another structure's, other
/// letters, the four bytes from the end, and the letters of another character
/// set.
fn spoil_identifier(random: &mut Random, bytes: &mut [u8]) {
    if random.chance(70) {
        let place = random.below(4);
        let old = bytes.get(place).copied().unwrap_or_default();
        let flipped = old ^ (1 << random.below(8));
        let new = random.pick(&[flipped, flipped, old.wrapping_add(1), 0xFF]);
        return put_bytes(bytes, place, &[new]);
    }
    let others = [
        *b"DLH ",
        *b"eph ",
        *b"EPH\0",
        *b" HPE",
        *b"\xC5\xD7\xC8\x40",
    ];
    put_bytes(bytes, 0, &random.pick(&others));
}

fn spoil_version(random: &mut Random, bytes: &mut [u8]) {
    let any = random.word();
    let version = random.pick(&[0, 2, 3, 1 << 8, 1 << 24, 1 << 31, u32::MAX, any]);
    put_word(bytes, 4, version);
}

/// Around the old end, around the message's end, at the least and below, far
/// beyond.
fn spoil_struc_length(random: &mut Random, bytes: &mut [u8]) {
    let old = word(bytes, 8).unwrap_or_default();
    let length = bytes.len() as u32;
    let far = length.wrapping_add(4 * random.between(2, 1000) as u32);
    let near = [1, 2, 4, 16, 36].map(|more| old.wrapping_add(more));
    let before = [1, 2, 4, 16].map(|less| old.wrapping_sub(less));
    let ends = [length, length & !3, (length & !3) + 4, length + 4, far];
    let least = [0, 32, 36, 64, 66, 68];
    let high = [65_536, 1 << 31, old | 1 << 31, u32::MAX - 3, u32::MAX];
    let choices = match random.below(9) {
        0 | 1 => &near[..],
        2 | 3 => &before[..],
        4 | 5 => &ends[..],
        6 | 7 => &least[..],
        _ => &high[..],
    };
    let new = random.pick(choices);
    put_word(bytes, 8, new);
}

/// The fields that are never judged: the message stays as sound as it was.
fn spoil_sender_fields(random: &mut Random, bytes: &mut [u8]) {
    let place = random.pick(&[12, 16, 20, 24, 28]);
    let any = random.word();
    let new = random.pick(&[0, 1, u32::MAX, any]);
    put_word(bytes, place, new);
}

/// In the user data, inside the part, to the least length and one byte below.
fn cut(random: &mut Random, bytes: &mut Vec<u8>) {
    let (end, length) = (claimed_end(bytes), bytes.len());
    let left = match random.below(6) {
        0 => 67,
        1 => 68,
        2 | 3 => random.between(end, length),
        4 => end.saturating_sub(random.between(1, 16)),
        _ => random.below(end),
    };
    bytes.truncate(left);
}

/// Damages the PCF part with the user data behind it as they were. Mostly
/// StrucLength follows the part's new size and this is made a multiple of 4, so
/// that the part is what is refused.
fn damage_inside(random: &mut Random, bytes: &mut Vec<u8>) {
    let end = claimed_end(bytes);
    let start = 32.min(end);
    let mut part = bytes[start..end].to_vec();
    let old = part.len();
    damage_part(random, &mut part);
    let follow = random.chance(92);
    if follow {
        let words = if part.len() < old {
            part.len() / 4
        } else {
            part.len().div_ceil(4)
        };
        part.resize(4 * words, 0);
    }
    let new_end = start + part.len();
    bytes.splice(start..end, part);
    if follow {
        put_word(bytes, 8, new_end as u32);
    }
}
