//! Compose: a fresh trace-route message (refusals 17, 8, 12).

use crate::attribute::{Values, ATTRIBUTES};
use crate::embedded::Embedding;
use crate::header::{Header, HEADER_LENGTH, MESSAGE_MAX};
use crate::layout::{Form, Layout};
use crate::refusal::Refusal;
use crate::sheet::Sheet;
use crate::structure::{GROUP, INTEGER};
use crate::trace::TRACE_ROUTE_GROUP;
use crate::word::{put_bytes, put_word};

/// Bytes of the group's structure and of each attribute.
const STRUCTURE_LENGTH: usize = 16;

/// Header, group and eight integers: the PCF part, and so a whole plain message.
pub const COMPOSED_LENGTH: usize = HEADER_LENGTH + STRUCTURE_LENGTH * (1 + ATTRIBUTES);

/// Writes the message at the buffer's start and gives its length: 180, and in
/// the embedded form 32 more and the user data. Bytes behind it stay. The
/// plain form has neither embedding nor user data, so there the two are not
/// looked at.
pub fn compose(
    layout: Layout,
    sheet: &Sheet,
    values: &Values,
    embedding: &Embedding,
    user_data: &[u8],
    buffer: &mut [u8],
) -> Result<usize, Refusal> {
    sheet.require_sound()?;
    if !values.in_range() {
        return Err(Refusal::whole(8));
    }
    let end = layout.pcf_start() + COMPOSED_LENGTH;
    let length = match layout.form {
        Form::Plain => end,
        Form::Embedded => end.saturating_add(user_data.len()),
    };
    if length > buffer.len() || length > MESSAGE_MAX {
        return Err(Refusal::whole(12));
    }
    if layout.form == Form::Embedded {
        embedding.put(buffer, end);
        put_bytes(buffer, end, user_data);
    }
    let part = buffer.get_mut(layout.pcf_start()..).unwrap_or_default();
    put_part(part, sheet, values);
    Ok(length)
}

/// Writes the PCF part.
fn put_part(part: &mut [u8], sheet: &Sheet, values: &Values) {
    Header::TRACE_ROUTE.put(part);
    put_structure(
        part,
        HEADER_LENGTH,
        [GROUP, TRACE_ROUTE_GROUP, ATTRIBUTES as u32],
    );
    let mut place = HEADER_LENGTH + STRUCTURE_LENGTH;
    for (identifier, value) in sheet.identifiers.into_iter().zip(values.to_array()) {
        put_structure(part, place, [INTEGER, identifier, value]);
        place += STRUCTURE_LENGTH;
    }
}

/// Groups and integers have the same four fields.
fn put_structure(part: &mut [u8], place: usize, [kind, parameter, last]: [u32; 3]) {
    put_word(part, place, kind);
    put_word(part, place + 4, STRUCTURE_LENGTH as u32);
    put_word(part, place + 8, parameter);
    put_word(part, place + 12, last);
}
