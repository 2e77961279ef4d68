//! Parts of a message: the n-th Activity group, and names inside it. These
//! entries give a stand-in instead of a refusal number.

use crate::layout::{Layout, PcfPart};
use crate::refusal::Refusal;
use crate::sheet::Sheet;
use crate::structure::{Row, STRING};
use crate::trace::{read, ACTIVITY_GROUP};
use crate::walk::{walk_one, walk_part};
use crate::word::word;

/// A string's StringLength and data, from the structure's start.
const STRING_LENGTH_OFFSET: usize = 16;
const STRING_DATA_OFFSET: usize = 20;

/// Clients fill names up with blanks or with zero bytes, so both are removed at
/// the end.
const FILL: [u8; 2] = [0x20, 0x00];

/// A part of the message.
#[derive(Clone, Copy, Debug, PartialEq, Eq)]
pub struct Part {
    pub place: usize,
    pub length: usize,
}

impl Part {
    /// The part's bytes; empty if it doesn't lie in the buffer.
    pub fn of(self, buffer: &[u8]) -> &[u8] {
        let rest = buffer.get(self.place..).unwrap_or_default();
        rest.get(..self.length).unwrap_or_default()
    }
}

/// A named string's answer.
#[derive(Clone, Copy, Debug, PartialEq, Eq)]
pub enum Named {
    /// A part of the message, possibly of length 0.
    InMessage(Part),
    /// The lent substitute, whole: it is never trimmed.
    Substitute,
}

impl Named {
    /// The answer's bytes from one of the two lent slices.
    pub fn of<'a>(self, buffer: &'a [u8], substitute: &'a [u8]) -> &'a [u8] {
        match self {
            Named::InMessage(part) => part.of(buffer),
            Named::Substitute => substitute,
        }
    }
}

/// The n-th Activity group (from 0) with all its members; none if there is no
/// such group or if Read refuses message or sheet.
pub fn activity_group(
    buffer: &[u8],
    length: usize,
    layout: Layout,
    sheet: &Sheet,
    n: usize,
) -> Option<Part> {
    read(buffer, length, layout, sheet).ok()?;
    nth_group(layout.pcf_part(buffer, length).ok()?, n).ok()?
}

/// The first direct string with the identifier in the n-th Activity group, up
/// to its last byte that is neither blank nor zero. A string without such a
/// byte is an empty part at its data, not the substitute.
pub fn named_string(
    buffer: &[u8],
    length: usize,
    layout: Layout,
    sheet: &Sheet,
    n: usize,
    identifier: u32,
) -> Named {
    let part = activity_group(buffer, length, layout, sheet, n)
        .and_then(|group| string_in(buffer, group, identifier));
    part.map_or(Named::Substitute, Named::InMessage)
}

/// The group reaches to the next top-level structure or to the PCF part's end.
fn nth_group(part: PcfPart, n: usize) -> Result<Option<Part>, Refusal> {
    let mut groups = 0;
    let mut start = None;
    let mut end = part.end();
    walk_part(part, |row| {
        if row.depth != 1 {
            return;
        }
        if start.is_some() {
            end = end.min(row.place);
        } else if row.is_group() && row.parameter == ACTIVITY_GROUP {
            if groups == n {
                start = Some(row.place);
            }
            groups += 1;
        }
    })?;
    Ok(start.map(|place| Part {
        place,
        length: end.saturating_sub(place),
    }))
}

fn string_in(buffer: &[u8], group: Part, identifier: u32) -> Option<Part> {
    let bytes = group.of(buffer);
    let mut first = None;
    walk_one(bytes, |row| {
        let named = row.depth == 2 && row.kind == STRING && row.parameter == identifier;
        if named && first.is_none() {
            first = Some(*row);
        }
    })
    .ok()?;
    let name = trimmed(bytes, &first?)?;
    Some(Part {
        place: group.place.checked_add(name.place)?,
        length: name.length,
    })
}

/// The string's data without the fill at the end; fill before another byte is
/// part of the name, and padding is no part of the data.
fn trimmed(bytes: &[u8], row: &Row) -> Option<Part> {
    let place = row.place.checked_add(STRING_DATA_OFFSET)?;
    let length = word(bytes, row.place.checked_add(STRING_LENGTH_OFFSET)?)? as usize;
    let data = bytes.get(place..)?.get(..length)?;
    let kept = data.iter().rposition(|byte| !FILL.contains(byte));
    Some(Part {
        place,
        length: kept.map_or(0, |last| last + 1),
    })
}
