//! Sound structures with nesting.

use super::build::{size, Piece};
use super::leaf::leaf;
use super::random::Random;

/// Numbers that a parameter likes to be: the ones with a meaning, the made-up
/// sheet's, and the ends of the range.
const FAVOURED: [u32; 10] = [8003, 8005, 8001, 1201, 1205, 1208, 3001, 3002, 0, u32::MAX];

/// A parameter: often from the pool, for names and decoys.
pub(super) fn parameter(random: &mut Random, pool: &[u32]) -> u32 {
    match random.below(10) {
        0..=3 if !pool.is_empty() => random.pick(pool),
        0..=6 => random.pick(&FAVOURED),
        7 | 8 => random.below(9000) as u32,
        _ => random.word(),
    }
}

/// One sound structure that is to stand at `depth`, in at most `room` bytes (16
/// at least).
pub fn tree(random: &mut Random, pool: &[u32], depth: u32, room: usize) -> Piece {
    let number = parameter(random, pool);
    if depth > 8 || !random.chance(35) {
        return leaf(random, number, room);
    }
    let inside = room.saturating_sub(16);
    let room = if random.chance(70) {
        inside.min(120)
    } else {
        inside
    };
    let members = forest(random, pool, depth + 1, room, 4);
    Piece::group(number, &members)
}

/// Up to `most` sound structures in at most `room` bytes together; none is
/// possible, so that groups may be empty.
pub fn forest(
    random: &mut Random,
    pool: &[u32],
    depth: u32,
    room: usize,
    most: usize,
) -> Vec<Piece> {
    let wanted = random.below(most + 1);
    let mut pieces: Vec<Piece> = Vec::new();
    let mut left = room;
    while pieces.len() < wanted && left >= 16 {
        let piece = tree(random, pool, depth, left);
        left = left.saturating_sub(piece.bytes.len());
        pieces.push(piece);
    }
    pieces
}

/// Groups inside groups from depth `from` to depth `to`, with leaves beside
/// and in the innermost. Sound if `to` is at most 8; the members of the
/// innermost group then stand at depth 9 at most.
pub fn chain(random: &mut Random, pool: &[u32], from: u32, to: u32) -> Piece {
    let mut members = leaves(random, pool);
    for depth in (from..=to).rev() {
        let number = parameter(random, pool);
        let group = Piece::group(number, &members);
        if depth == from {
            return group;
        }
        members = leaves(random, pool);
        members.push(group);
        members.extend(leaves(random, pool));
    }
    leaf(random, 0, 16)
}

/// A chain to a depth from 8 on: sound at 8, refused with 4 above.
pub fn deep_chain(random: &mut Random, pool: &[u32], to: u32) -> Piece {
    chain(random, pool, 1, to)
}

fn leaves(random: &mut Random, pool: &[u32]) -> Vec<Piece> {
    (0..random.below(3))
        .map(|_| {
            let number = parameter(random, pool);
            leaf(random, number, 32)
        })
        .collect()
}

/// Fills up to `room` bytes with a good many structures.
pub(super) fn crowd(random: &mut Random, pool: &[u32], room: usize) -> Vec<Piece> {
    let mut pieces = Vec::new();
    loop {
        let left = room.saturating_sub(size(&pieces));
        if left < 64 {
            return pieces;
        }
        // A chain has 1,300 bytes at most.
        if random.chance(3) && left > 1300 {
            pieces.push(chain(random, pool, 1, 8));
        } else {
            pieces.push(tree(random, pool, 1, left));
        }
    }
}
