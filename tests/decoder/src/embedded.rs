//! The embedded form's own bytes: the 32-byte header before the PCF part
//! (refusal 18), and the user data behind that part.

use crate::header::HEADER_LENGTH;
use crate::refusal::Refusal;
use crate::word::{put_bytes, put_word, word};

/// Bytes of the embedded header.
pub const EMBEDDED_HEADER_LENGTH: usize = 32;

/// A PCF header at least stands behind the embedded one.
const STRUC_LENGTH_MIN: usize = EMBEDDED_HEADER_LENGTH + HEADER_LENGTH;

const IDENTIFIER: [u8; 4] = *b"EPH ";
const VERSION: u32 = 1;

const VERSION_PLACE: usize = 4;
const STRUC_LENGTH_PLACE: usize = 8;
const ENCODING_PLACE: usize = 12;
const CODED_CHAR_SET_ID_PLACE: usize = 16;
const FORMAT_PLACE: usize = 20;
const FLAGS_PLACE: usize = 28;

/// The fields of the embedded header that are the sender's own. They speak of
/// the user data, so they are handed over and never judged.
#[derive(Clone, Copy, Debug, PartialEq, Eq)]
pub struct Embedding {
    pub encoding: u32,
    pub coded_char_set_id: u32,
    pub format: [u8; 8],
    pub flags: u32,
}

impl Embedding {
    /// What stands for the fields where there is no embedded header.
    pub const NONE: Embedding = Embedding {
        encoding: 0,
        coded_char_set_id: 0,
        format: [0; 8],
        flags: 0,
    };

    /// The fields of the embedded header at the bytes' start, none where the
    /// bytes are too few.
    pub fn of(bytes: &[u8]) -> Option<Embedding> {
        Some(Embedding {
            encoding: word(bytes, ENCODING_PLACE)?,
            coded_char_set_id: word(bytes, CODED_CHAR_SET_ID_PLACE)?,
            format: *bytes.get(FORMAT_PLACE..)?.first_chunk()?,
            flags: word(bytes, FLAGS_PLACE)?,
        })
    }

    /// Writes an embedded header whose PCF part ends at `end`.
    pub(crate) fn put(&self, bytes: &mut [u8], end: usize) {
        put_bytes(bytes, 0, &IDENTIFIER);
        put_word(bytes, VERSION_PLACE, VERSION);
        put_word(bytes, STRUC_LENGTH_PLACE, end as u32);
        put_word(bytes, ENCODING_PLACE, self.encoding);
        put_word(bytes, CODED_CHAR_SET_ID_PLACE, self.coded_char_set_id);
        put_bytes(bytes, FORMAT_PLACE, &self.format);
        put_word(bytes, FLAGS_PLACE, self.flags);
    }
}

/// Where the PCF part of an embedded message ends, or refusal 18. User data
/// begin there; without any it is the message's end.
#[inline]
pub(crate) fn struc_length(message: &[u8]) -> Result<usize, Refusal> {
    sound_struc_length(message).ok_or(Refusal::whole(18))
}

#[inline]
fn sound_struc_length(message: &[u8]) -> Option<usize> {
    let named = message.starts_with(&IDENTIFIER) && word(message, VERSION_PLACE)? == VERSION;
    let end = word(message, STRUC_LENGTH_PLACE)? as usize;
    let sound = named && (STRUC_LENGTH_MIN..=message.len()).contains(&end) && end.is_multiple_of(4);
    sound.then_some(end)
}

/// Moves the user data at `end` back by `more` bytes, which belong to the PCF
/// part from then on. The old and the new place may overlap. Callers have made
/// sure of the room.
pub(crate) fn make_way(message: &mut [u8], length: usize, end: usize, more: usize) {
    let rest = message.get_mut(end..).unwrap_or_default();
    let user_data = length.saturating_sub(end);
    if user_data.saturating_add(more) <= rest.len() {
        rest.copy_within(..user_data, more);
        put_word(message, STRUC_LENGTH_PLACE, end.saturating_add(more) as u32);
    }
}
