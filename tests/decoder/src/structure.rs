//! One structure: the table of eleven structure types with their length rules,
//! and the row of the structure at a place (refusals 3 and 4).

use crate::header::COUNT_BOUND;
use crate::refusal::Refusal;
use crate::word::word;

pub(crate) const INTEGER: u32 = 3;
pub(crate) const STRING: u32 = 4;
pub(crate) const GROUP: u32 = 20;

/// No group is deeper than this; a top-level group has depth 1.
pub const DEEPEST_GROUP: u32 = 8;

/// One line of the listing, and for a group how many structures are inside.
#[derive(Clone, Copy, Debug, PartialEq, Eq)]
pub struct Row {
    pub depth: u32,
    pub place: usize,
    pub kind: u32,
    pub parameter: u32,
    pub struc_length: u32,
    /// A group's ParameterCount, none for the other types.
    pub count: Option<u32>,
}

impl Row {
    pub fn is_group(&self) -> bool {
        self.kind == GROUP
    }

    /// The place behind this one structure: for a group that of its first
    /// member. Rows that the decoder gives lie inside a message, so the sum
    /// never saturates for them.
    #[inline]
    pub fn behind(&self) -> usize {
        self.place.saturating_add(self.struc_length as usize)
    }
}

/// What the fixed part and the counts demand of StrucLength. The numbers are
/// 64 bits wide because Count x StringLength goes up to 2^62.
enum Extent {
    Exactly(u64),
    AtLeast(u64),
}

/// A count or length field, none if it is missing or 2^31 or more.
#[inline]
fn bounded(structure: &[u8], at: usize) -> Option<u64> {
    let number = word(structure, at)?;
    (number < COUNT_BOUND).then_some(u64::from(number))
}

/// The table of eleven structure types; none for an unknown type and for a
/// faulty or missing count or length field.
#[inline]
fn extent(kind: u32, structure: &[u8]) -> Option<Extent> {
    Some(match kind {
        INTEGER => Extent::Exactly(16),
        STRING => Extent::AtLeast(20 + bounded(structure, 16)?),
        5 => Extent::Exactly(16 + 4 * bounded(structure, 12)?),
        6 => Extent::AtLeast(24 + bounded(structure, 16)? * bounded(structure, 20)?),
        9 => Extent::AtLeast(16 + bounded(structure, 12)?),
        13 => Extent::Exactly(20),
        14 => Extent::AtLeast(24 + bounded(structure, 20)?),
        15 => Extent::AtLeast(20 + bounded(structure, 16)?),
        GROUP => {
            // The count says nothing about the length, yet has its bound.
            bounded(structure, 12)?;
            Extent::Exactly(16)
        }
        23 => Extent::Exactly(24),
        25 => Extent::Exactly(16 + 8 * bounded(structure, 12)?),
        _ => return None,
    })
}

/// The row of the structure at the start of `rest`, none if it has any fault.
#[inline]
fn row(rest: &[u8], depth: u32, place: usize) -> Option<Row> {
    // No type has a fixed part below 16 bytes.
    let fixed: &[u8; 16] = rest.first_chunk()?;
    let kind = word(fixed, 0)?;
    let struc_length = word(fixed, 4)?;
    let claimed = u64::from(struc_length);
    let fits = match extent(kind, rest)? {
        Extent::Exactly(length) => claimed == length,
        Extent::AtLeast(length) => claimed >= length,
    };
    if !fits || claimed % 4 != 0 || claimed > rest.len() as u64 {
        return None;
    }
    Some(Row {
        depth,
        place,
        kind,
        parameter: word(fixed, 8)?,
        struc_length,
        count: if kind == GROUP { word(fixed, 12) } else { None },
    })
}

/// The structure at `place` of the bytes, or 3 before 4 at that place. Members
/// of a group are not looked at.
#[inline]
pub(crate) fn structure_at(bytes: &[u8], place: usize, depth: u32) -> Result<Row, Refusal> {
    let rest = bytes.get(place..).unwrap_or_default();
    let found = row(rest, depth, place).ok_or(Refusal::new(3, place))?;
    if found.is_group() && depth > DEEPEST_GROUP {
        return Err(Refusal::new(4, place));
    }
    Ok(found)
}
