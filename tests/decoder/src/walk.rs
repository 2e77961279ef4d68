//! The walk over all structures in reading order, nested ones included.
//!
//! The counts still due are kept in a small array instead of on the call
//! stack: one for the header and one for each of at most eight open groups.

use crate::layout::PcfPart;
use crate::refusal::Refusal;
use crate::structure::{structure_at, Row, DEEPEST_GROUP};

const LEVELS: usize = DEEPEST_GROUP as usize + 1;

/// Walks over a message's PCF part and shows each sound structure to `visit`,
/// up to the first fault: refusals 2 to 5, with places in the message.
#[inline]
pub(crate) fn walk_part(part: PcfPart, visit: impl FnMut(&Row)) -> Result<(), Refusal> {
    let header = part.sound_header()?;
    walk(
        part.bytes,
        part.first_place(),
        header.parameter_count,
        visit,
    )
}

/// Walks over one structure that is to fill the bytes, as if at top level:
/// refusals 3 to 5, with places in these bytes.
pub(crate) fn walk_one(bytes: &[u8], visit: impl FnMut(&Row)) -> Result<(), Refusal> {
    walk(bytes, 0, 1, visit)
}

#[inline]
fn walk(
    bytes: &[u8],
    mut place: usize,
    count: u32,
    mut visit: impl FnMut(&Row),
) -> Result<(), Refusal> {
    // Structures still due: in the header's count at 0, in the open group of
    // depth d at d.
    let mut due = [0; LEVELS];
    due[0] = count;
    let mut open = 0;
    loop {
        while due[open] == 0 {
            if open == 0 {
                return nothing_follows(bytes, place);
            }
            open -= 1;
        }
        // The structure is inside the innermost open group.
        let row = structure_at(bytes, place, open as u32 + 1)?;
        visit(&row);
        due[open] -= 1;
        if let Some(members) = row.count {
            // A group that is no refusal has depth 8 at most, so there is a level for it.
            open += 1;
            due[open] = members;
        }
        place = row.behind();
    }
}

/// All counts are met.
fn nothing_follows(bytes: &[u8], place: usize) -> Result<(), Refusal> {
    if place < bytes.len() {
        return Err(Refusal::new(5, place));
    }
    Ok(())
}
