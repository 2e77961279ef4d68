//! Check, rows, tally, and the walk one structure at a time (refusals 1, 18,
//! 2 to 5).

use crate::layout::Layout;
use crate::refusal::Refusal;
use crate::structure::{structure_at, Row};
use crate::walk::walk_part;

/// A tally has one count for each type 0 to 26.
pub const KINDS: usize = 27;

/// The number of structures in a sound message, nested ones included.
pub fn check(buffer: &[u8], length: usize, layout: Layout) -> Result<usize, Refusal> {
    let mut structures = 0;
    walk_part(layout.pcf_part(buffer, length)?, |_| structures += 1)?;
    Ok(structures)
}

/// All rows of a sound message in reading order.
pub fn rows(buffer: &[u8], length: usize, layout: Layout) -> Result<Vec<Row>, Refusal> {
    let mut rows = Vec::new();
    walk_part(layout.pcf_part(buffer, length)?, |row| rows.push(*row))?;
    Ok(rows)
}

/// The counts for each type, all zero beside a refusal. A sound message with
/// no structures is all zero too, which is why the refusal stands beside.
#[derive(Clone, Copy, Debug, PartialEq, Eq)]
pub struct Tally {
    pub counts: [u32; KINDS],
    pub refusal: Option<Refusal>,
}

/// Counts the structures of each type, nested ones included.
pub fn tally(buffer: &[u8], length: usize, layout: Layout) -> Tally {
    match counts(buffer, length, layout) {
        Ok(counts) => Tally {
            counts,
            refusal: None,
        },
        Err(refusal) => Tally {
            counts: [0; KINDS],
            refusal: Some(refusal),
        },
    }
}

fn counts(buffer: &[u8], length: usize, layout: Layout) -> Result<[u32; KINDS], Refusal> {
    let mut counts = [0; KINDS];
    walk_part(layout.pcf_part(buffer, length)?, |row| {
        // Sound structures have types up to 25, so there always is a count.
        if let Some(count) = counts.get_mut(row.kind as usize) {
            *count += 1;
        }
    })?;
    Ok(counts)
}

/// The row of the structure at any place, taken to be at any depth, and the
/// place behind that one structure; or 1, 18, 3 or 4 in this order. The PCF
/// header is not looked at, and a place inside it, or inside an embedded header,
/// is read like any other. The PCF part's end is the end here.
pub fn step(
    buffer: &[u8],
    length: usize,
    layout: Layout,
    place: usize,
    depth: u32,
) -> Result<(Row, usize), Refusal> {
    let part = layout.pcf_part(buffer, length)?;
    let row = structure_at(part.bytes, place, depth)?;
    Ok((row, row.behind()))
}
