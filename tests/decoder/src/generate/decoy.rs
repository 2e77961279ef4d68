//! Structures that look like a trace's own and aren't: the sheet's identifiers
//! and the groups 8003 and 8005 where they have no meaning.

use super::build::Piece;
use super::group::activity_members;
use super::random::Random;
use super::tree::{chain, forest, tree};
use super::values::values;
use crate::sheet::Sheet;
use crate::trace::{ACTIVITY_GROUP, TRACE_ROUTE_GROUP};

/// Direct members with other parameters; the sheet's identifiers stand in
/// nested groups only.
pub(super) fn further_members(random: &mut Random, sheet: &Sheet) -> Vec<Piece> {
    let mut pieces = forest(random, &sheet.identifiers, 2, 200, 4);
    if random.chance(25) {
        pieces.push(Piece::group(ACTIVITY_GROUP, &decoys(random, sheet)));
    }
    if random.chance(15) {
        pieces.push(Piece::group(TRACE_ROUTE_GROUP, &decoys(random, sheet)));
    }
    if random.chance(10) {
        pieces.push(chain(random, &sheet.identifiers, 2, 8));
    }
    for piece in &mut pieces {
        while sheet.attribute(piece.parameter()).is_some() {
            piece.set_parameter(random.word());
        }
    }
    pieces
}

/// Activity groups and other top-level structures, none a TraceRoute group.
pub(super) fn other_structures(random: &mut Random, sheet: &Sheet) -> Vec<Piece> {
    let mut pieces = Vec::new();
    for _ in 0..random.below(6) {
        pieces.push(match random.below(8) {
            0..=2 => Piece::group(ACTIVITY_GROUP, &activity_members(random, sheet, 300)),
            3 => Piece::group(ACTIVITY_GROUP, &decoys(random, sheet)),
            4 => hidden_trace_route(random, sheet),
            5 => Piece::string(random.pick(&[8003, 8005, sheet.identifiers[4]]), b"8003"),
            6 => Piece::integer(random.pick(&[8003, 8005, sheet.identifiers[1]]), 1),
            _ => tree(random, &sheet.identifiers, 1, 300),
        });
    }
    for piece in &mut pieces {
        if piece.is_group() && piece.parameter() == TRACE_ROUTE_GROUP {
            piece.set_parameter(8004);
        }
    }
    pieces
}

/// Some of the eight attributes with values that would be in range.
fn decoys(random: &mut Random, sheet: &Sheet) -> Vec<Piece> {
    let pairs = sheet.identifiers.into_iter().zip(values(random).to_array());
    let most = random.between(1, 8);
    pairs
        .map(|(identifier, value)| Piece::integer(identifier, value))
        .take(most)
        .collect()
}

/// A nested TraceRoute group in a group of another or of the Activity kind.
fn hidden_trace_route(random: &mut Random, sheet: &Sheet) -> Piece {
    let inner = Piece::group(TRACE_ROUTE_GROUP, &decoys(random, sheet));
    let nested = Piece::group(ACTIVITY_GROUP, std::slice::from_ref(&inner));
    let outer = random.pick(&[ACTIVITY_GROUP, 8004, 1]);
    Piece::group(outer, &[inner, nested])
}
