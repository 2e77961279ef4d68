//! User data of many sizes. They are any bytes; many look like what could
//! stand before them, so that a reader that walks on into them is caught.

use super::build::{assemble, Piece};
use super::embed::embed;
use super::random::Random;
use super::tree::forest;
use super::NAMES;
use crate::embedded::Embedding;
use crate::sample::MADE_UP;
use crate::trace::{ACTIVITY_GROUP, TRACE_ROUTE_GROUP};

/// User data in at most so many bytes.
pub(super) fn user_data(random: &mut Random, room: usize) -> Vec<u8> {
    let mut bytes = alike(random);
    let size = size(random, bytes.len(), room);
    bytes.truncate(size);
    fill(random, &mut bytes, size);
    bytes
}

/// Any bytes behind these, up to the size.
pub(super) fn fill(random: &mut Random, bytes: &mut Vec<u8>, size: usize) {
    let more = size.saturating_sub(bytes.len());
    bytes.extend(random.bytes(more));
}

/// None, a few of each remainder by 4, as many as they are, many, and all that
/// a message can hold or nearly so.
fn size(random: &mut Random, whole: usize, room: usize) -> usize {
    let spare = random.pick(&[0, 0, 0, 1, 3, 16, 17, 20, 100, 200]);
    let size = match random.below(24) {
        0..=2 => 0,
        3 => 1,
        4 => 2,
        5 => 3,
        6 => 5,
        7..=10 => random.below(64),
        11..=19 => whole,
        20 | 21 => random.below(600),
        22 => random.below(6000),
        _ => room.saturating_sub(spare),
    };
    size.min(room)
}

/// Structures, groups with a meaning, whole messages, or any bytes.
fn alike(random: &mut Random) -> Vec<u8> {
    match random.below(8) {
        0 | 1 => {
            let length = random.below(100);
            random.bytes(length)
        }
        2 => joined(&forest(random, &NAMES, 1, 300, 6)),
        3 | 4 => activities(random),
        5 => trace_route().bytes,
        6 => message(),
        _ => embed(&Embedding::NONE, &message(), b"behind"),
    }
}

fn joined(pieces: &[Piece]) -> Vec<u8> {
    pieces
        .iter()
        .flat_map(|piece| piece.bytes.iter().copied())
        .collect()
}

/// Activity groups with names, such as may be appended to a trace.
fn activities(random: &mut Random) -> Vec<u8> {
    let groups: Vec<Piece> = (0..random.between(1, 3))
        .map(|_| {
            let name = Piece::string(random.pick(&NAMES), b"user data");
            Piece::group(ACTIVITY_GROUP, &[name])
        })
        .collect();
    joined(&groups)
}

/// A second TraceRoute group for a trace under the made-up sheet.
fn trace_route() -> Piece {
    let values = [32, 1, 2, 3, 0, 0x10004, 0x100, 0x1000];
    let attributes: Vec<Piece> = MADE_UP
        .into_iter()
        .zip(values)
        .map(|(identifier, value)| Piece::integer(identifier, value))
        .collect();
    Piece::group(TRACE_ROUTE_GROUP, &attributes)
}

fn message() -> Vec<u8> {
    assemble([10, 36, 3, 75, 1, 1, 0, 0], &[trace_route()])
}
