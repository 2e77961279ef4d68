//! Damage to messages: cuts, flipped bytes, wrong counts and lengths, groups
//! too deep, left-over bytes, wrong header fields.

use super::build::Piece;
use super::damage_embedded::damage_embedded;
use super::layout::{bytes_before, other_layout};
use super::lend::{lend, other_length, wrong_length, Lent};
use super::message::sound_message;
use super::random::Random;
use super::tree::deep_chain;
use super::NAMES;
use crate::check::rows;
use crate::layout::{Form, Layout};
use crate::structure::Row;
use crate::word::{put_bytes, put_word, word};

/// Numbers at the edges: the 2^31 bound, and factors that wrap to small
/// products or sums in 32 bits.
const EDGES: [u32; 10] = [
    0,
    1,
    16,
    65_536,
    1 << 29,
    1 << 30,
    i32::MAX as u32,
    1 << 31,
    (1 << 31) + 1,
    u32::MAX,
];

/// A sound message with one or two damages, or with another length or layout
/// than its own.
pub fn damaged_message(random: &mut Random, layout: Layout) -> Lent {
    let message = sound_message(random, layout).bytes;
    let mut lent = lend(random, layout, message);
    if misname(random, &mut lent) {
        return lent;
    }
    lent.buffer.truncate(lent.length);
    let mut bytes = lent.buffer;
    damage(random, layout, &mut bytes);
    if random.chance(10) {
        damage(random, layout, &mut bytes);
    }
    lend(random, layout, bytes)
}

/// Now and then names a length that gives 1, another length, or another layout;
/// the bytes stay. Whether it did is the answer.
pub(super) fn misname(random: &mut Random, lent: &mut Lent) -> bool {
    match random.below(100) {
        0..=7 => wrong_length(random, lent),
        8..=11 => other_length(random, lent),
        12..=16 => lent.layout = other_layout(lent.layout),
        _ => return false,
    }
    true
}

/// Damages the bytes of a message of this layout in one way.
pub fn damage(random: &mut Random, layout: Layout, bytes: &mut Vec<u8>) {
    match layout.form {
        Form::Plain => damage_part(random, bytes),
        Form::Embedded => damage_embedded(random, bytes),
    }
}

/// Damages a PCF part, which a plain message is as a whole.
pub(super) fn damage_part(random: &mut Random, bytes: &mut Vec<u8>) {
    match random.below(17) {
        0 | 1 => cut(random, bytes),
        2 => flip(random, bytes),
        3..=7 => spoil_structure(random, bytes),
        8 | 9 => too_deep(random, bytes),
        10 | 11 => left_over(random, bytes),
        12 | 13 => spoil_header(random, bytes),
        14 | 15 => spoil_count(random, bytes),
        _ => spoil_word(random, bytes),
    }
}

/// Bytes without any sense, sometimes behind sound headers.
pub fn noise(random: &mut Random, layout: Layout) -> Lent {
    let start = bytes_before(layout);
    let length = random.pick(&[0, 35, 36, 37, 52, 100, 1000]) + start + random.below(40);
    let mut bytes = random.bytes(length);
    if random.chance(70) && bytes.len() >= start + 36 {
        if layout.form == Form::Embedded {
            put_bytes(&mut bytes, 0, b"EPH ");
            put_word(&mut bytes, 4, 1);
            let end = random.between(68, length) & !3;
            put_word(&mut bytes, 8, end as u32);
        }
        put_word(&mut bytes, start + 4, 36);
        put_word(&mut bytes, start + 8, 3);
        put_word(&mut bytes, start + 32, random.below(4) as u32);
    }
    lend(random, layout, bytes)
}

fn cut(random: &mut Random, bytes: &mut Vec<u8>) {
    let less = match random.below(4) {
        0 => 1,
        1 => 4,
        2 => random.between(1, 40),
        _ => random.below(bytes.len() + 1),
    };
    bytes.truncate(bytes.len().saturating_sub(less));
}

pub(super) fn flip(random: &mut Random, bytes: &mut [u8]) {
    let place = random.below(bytes.len());
    if let Some(byte) = bytes.get_mut(place) {
        *byte ^= 1 << random.below(8);
    }
}

/// A number near the old one, or at an edge.
fn spoilt(random: &mut Random, old: u32) -> u32 {
    match random.below(6) {
        0 => old.wrapping_add(1),
        1 => old.wrapping_sub(1),
        2 => old.wrapping_add(4),
        3 => old.wrapping_sub(4),
        _ => random.pick(&EDGES),
    }
}

/// Type, StrucLength, or one of the three fields that may be a count or length.
fn spoil_structure(random: &mut Random, bytes: &mut Vec<u8>) {
    let Ok(rows) = rows(bytes, bytes.len(), Layout::PLAIN) else {
        return cut(random, bytes);
    };
    let Some(row) = rows.get(random.below(rows.len())) else {
        return left_over(random, bytes);
    };
    if row.kind == 6 && random.chance(60) {
        return spoil_string_list(random, bytes, row);
    }
    let offset = random.pick(&[0, 4, 12, 12, 16, 16, 20]);
    let old = word(bytes, row.place + offset).unwrap_or_default();
    let new = if offset == 0 && random.chance(50) {
        random.below(28) as u32
    } else {
        spoilt(random, old)
    };
    put_word(bytes, row.place + offset, new);
}

/// Both factors at once, so that the product is huge, wraps, or is zero.
fn spoil_string_list(random: &mut Random, bytes: &mut [u8], row: &Row) {
    let (count, length) = (random.pick(&EDGES), random.pick(&EDGES));
    put_word(bytes, row.place + 16, count);
    put_word(bytes, row.place + 20, length);
}

/// Puts a chain with a group at depth 9 (sometimes 10) before or behind the
/// other structures, and counts it.
fn too_deep(random: &mut Random, bytes: &mut Vec<u8>) {
    let deepest = random.pick(&[9, 9, 10]);
    let chain = deep_chain(random, &NAMES, deepest);
    let end = bytes.len();
    let place = random.pick(&[36.min(end), end]);
    bytes.splice(place..place, chain.bytes);
    raise_count(bytes);
}

fn raise_count(bytes: &mut [u8]) {
    let count = word(bytes, 32).unwrap_or_default();
    put_word(bytes, 32, count.wrapping_add(1));
}

/// Bytes that no count speaks of: a few, or a whole sound structure.
fn left_over(random: &mut Random, bytes: &mut Vec<u8>) {
    let more = match random.below(3) {
        0 => vec![0; random.between(1, 8)],
        1 => {
            let length = random.between(1, 40);
            random.bytes(length)
        }
        _ => Piece::integer(1205, 7).bytes,
    };
    bytes.extend(more);
}

/// Mostly one of the two fields that every message must have right.
pub(super) fn spoil_header(random: &mut Random, bytes: &mut [u8]) {
    let place = if random.chance(65) {
        random.pick(&[4, 8])
    } else {
        4 * random.below(9)
    };
    let old = word(bytes, place).unwrap_or_default();
    let new = spoilt(random, old);
    put_word(bytes, place, new);
}

/// The header's count, or that of some group.
fn spoil_count(random: &mut Random, bytes: &mut [u8]) {
    let mut places = vec![32];
    if let Ok(rows) = rows(bytes, bytes.len(), Layout::PLAIN) {
        places.extend(
            rows.iter()
                .filter(|row| row.is_group())
                .map(|row| row.place + 12),
        );
    }
    let place = random.pick(&places);
    let old = word(bytes, place).unwrap_or_default();
    let new = spoilt(random, old);
    put_word(bytes, place, new);
}

/// Any aligned number.
fn spoil_word(random: &mut Random, bytes: &mut [u8]) {
    let place = 4 * random.below(bytes.len() / 4);
    let old = word(bytes, place).unwrap_or_default();
    let new = spoilt(random, old);
    put_word(bytes, place, new);
}
