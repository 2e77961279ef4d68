//! Lent Activity groups, sound and unsound.

use super::build::Piece;
use super::damage::damage_part;
use super::leaf::{filler, string};
use super::random::Random;
use super::tree::{chain, forest};
use super::NAMES;
use crate::lent::LENT_MAX;
use crate::sheet::Sheet;
use crate::trace::{ACTIVITY_GROUP, TRACE_ROUTE_GROUP};
use crate::word::{put_word, word};

/// Lengths of names, with every length of the shortest padding.
const NAME_LENGTHS: [usize; 10] = [0, 1, 2, 3, 5, 8, 12, 18, 20, 48];

/// Members of an Activity group: names, the sheet's identifiers, anything.
pub(super) fn activity_members(random: &mut Random, sheet: &Sheet, room: usize) -> Vec<Piece> {
    let mut pieces = forest(random, &sheet.identifiers, 2, room, 4);
    for _ in 0..random.below(5) {
        let (name, length) = (random.pick(&NAMES), random.pick(&NAME_LENGTHS));
        let place = random.below(pieces.len() + 1);
        pieces.insert(place, string(random, name, length));
    }
    pieces
}

/// A sound lent group: 16 bytes to 65,500, most of them short.
pub fn sound_group(random: &mut Random, sheet: &Sheet) -> Vec<u8> {
    let members = match random.below(100) {
        0..=9 => Vec::new(),
        10..=79 => activity_members(random, sheet, 200),
        80..=89 => vec![chain(random, &sheet.identifiers, 2, 8)],
        90..=97 => activity_members(random, sheet, 2000),
        _ => {
            let size = random.pick(&[LENT_MAX, LENT_MAX - 4, 65_000, 30_000]);
            vec![filler(random, 3001, size - 16)]
        }
    };
    Piece::group(ACTIVITY_GROUP, &members).bytes
}

/// An unsound lent group. Each kind of fault is unsound for certain.
pub fn unsound_group(random: &mut Random, sheet: &Sheet) -> Vec<u8> {
    let members = activity_members(random, sheet, 200);
    let mut bytes = Piece::group(ACTIVITY_GROUP, &members).bytes;
    match random.below(12) {
        0 => bytes.truncate(random.below(16)),
        1 => bytes = Piece::group(random.pick(&[TRACE_ROUTE_GROUP, 8004, 0]), &members).bytes,
        2 => bytes = Piece::integer(ACTIVITY_GROUP, 0).bytes,
        3 => bytes = Piece::string(ACTIVITY_GROUP, b"activity").bytes,
        4 => bytes.truncate(bytes.len() - random.between(1, 15)),
        5 => {
            let length = random.between(1, 40);
            bytes.extend(random.bytes(length));
        }
        6 => bytes.extend(bytes.clone()),
        7 => put_word(&mut bytes, 4, random.pick(&[0, 12, 20, 17, u32::MAX])),
        8 => spoil_count(random, &mut bytes),
        9 | 10 => {
            let deep = chain(random, &sheet.identifiers, 2, 9);
            bytes = Piece::group(ACTIVITY_GROUP, &[deep]).bytes;
        }
        _ => {
            // Sound but for its length, just above the most allowed.
            let long = filler(random, 3001, LENT_MAX - 12);
            bytes = Piece::group(ACTIVITY_GROUP, &[long]).bytes;
        }
    }
    bytes
}

/// Mostly sound, then unsound for certain, then damaged with open result.
pub fn lent_group(random: &mut Random, sheet: &Sheet) -> Vec<u8> {
    match random.below(100) {
        0..=89 => sound_group(random, sheet),
        90..=95 => unsound_group(random, sheet),
        _ => {
            // The damages expect a header before the structures.
            let mut message = vec![0; 36];
            put_word(&mut message, 4, 36);
            put_word(&mut message, 8, 3);
            put_word(&mut message, 32, 1);
            message.extend(sound_group(random, sheet));
            damage_part(random, &mut message);
            message.split_off(36.min(message.len()))
        }
    }
}

/// A count that cannot be met, or leaves bytes over.
fn spoil_count(random: &mut Random, bytes: &mut [u8]) {
    let count = word(bytes, 12).unwrap_or_default();
    let fewer = count.checked_sub(1).unwrap_or(1);
    let new = random.pick(&[count + 1, fewer, i32::MAX as u32, 1 << 31, u32::MAX]);
    put_word(bytes, 12, new);
}
