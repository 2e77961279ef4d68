//! Sound messages of any type.

use super::build::{assemble, size, Piece};
use super::damage::{damaged_message, noise};
use super::embed::lay_out;
use super::layout::bytes_before;
use super::leaf::filler;
use super::lend::{lend, Lent};
use super::random::Random;
use super::tree::{chain, crowd, forest};
use super::NAMES;
use crate::check::KINDS;
use crate::header::{HEADER_LENGTH, MESSAGE_MAX};
use crate::layout::Layout;

/// A sound message, with what its builder knows of it.
#[derive(Clone, Debug, PartialEq, Eq)]
pub struct SoundMessage {
    pub bytes: Vec<u8>,
    pub layout: Layout,
    /// Where the user data begin: the PCF part's end.
    pub user_data_place: usize,
    pub structures: usize,
    pub tally: [u32; KINDS],
}

/// A sound message: all eleven types, nesting, padding, empty groups, user
/// data; from the least length to 65,536.
pub fn sound_message(random: &mut Random, layout: Layout) -> SoundMessage {
    let room = MESSAGE_MAX - bytes_before(layout) - HEADER_LENGTH;
    let pieces = pieces(random, room);
    let part = assemble(header_fields(random), &pieces);
    let laid = lay_out(random, layout, part);
    let mut tally = [0; KINDS];
    for piece in &pieces {
        for (sum, count) in tally.iter_mut().zip(piece.tally) {
            *sum += count;
        }
    }
    SoundMessage {
        bytes: laid.bytes,
        layout,
        user_data_place: laid.user_data_place,
        structures: pieces.iter().map(Piece::structures).sum(),
        tally,
    }
}

/// A mix: sound messages, damaged ones, noise.
pub fn any_message(random: &mut Random, layout: Layout) -> Lent {
    match random.below(10) {
        0..=3 => {
            let message = sound_message(random, layout).bytes;
            lend(random, layout, message)
        }
        4..=8 => damaged_message(random, layout),
        _ => noise(random, layout),
    }
}

/// Structures in so many bytes at most.
fn pieces(random: &mut Random, room: usize) -> Vec<Piece> {
    match random.below(100) {
        0..=4 => Vec::new(),
        5..=59 => forest(random, &NAMES, 1, 400, 8),
        60..=74 => vec![chain(random, &NAMES, 1, 8)],
        75..=94 => forest(random, &NAMES, 1, 3000, 30),
        95..=97 => crowded(random, room),
        _ => integers(random, room),
    }
}

/// A large message; every second one has exactly 65,536 bytes.
fn crowded(random: &mut Random, room: usize) -> Vec<Piece> {
    let used = if random.chance(50) {
        room
    } else {
        random.below(room)
    };
    let mut pieces = crowd(random, &NAMES, used.saturating_sub(64));
    let left = room - size(&pieces);
    if random.chance(50) {
        let last = filler(random, 3001, left);
        pieces.push(last);
    }
    pieces
}

/// As many structures as a message can hold, or some less.
fn integers(random: &mut Random, room: usize) -> Vec<Piece> {
    let most = room / 16;
    let count = random.pick(&[most, most - 1, 2000, 1000]);
    (0..count)
        .map(|_| Piece::integer(random.word(), 1))
        .collect()
}

/// Header fields that are sound; those that aren't judged are anything. With
/// some of the types a header can be read as a structure.
fn header_fields(random: &mut Random) -> [u32; 8] {
    let kind = random.pick(&[1, 2, 3, 4, 4, 4, 5, 6, 7, 10, 12, 14, 15, 20, u32::MAX]);
    let command = random.pick(&[75, 69, 99, 0, u32::MAX]);
    let version = random.between(1, 3) as u32;
    let (sequence, control) = if random.chance(50) {
        (1, 1)
    } else {
        (random.word(), random.word())
    };
    let (code, reason) = if random.chance(50) {
        (0, 0)
    } else {
        (random.word(), random.word())
    };
    [kind, 36, version, command, sequence, control, code, reason]
}
