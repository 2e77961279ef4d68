//! How a message is laid out, as the caller says, and the PCF part that this
//! makes of it (refusals 1 and 18).
//!
//! Everything that walks over structures starts from the part made here, so
//! that no other place has to know where a message's PCF header stands or
//! where its structures end.

use crate::embedded::{struc_length, EMBEDDED_HEADER_LENGTH};
use crate::header::{Header, HEADER_LENGTH, MESSAGE_MAX};
use crate::refusal::Refusal;

/// What stands around the PCF part.
#[derive(Clone, Copy, Debug, PartialEq, Eq)]
pub enum Form {
    /// The PCF part is the whole message.
    Plain,
    /// An embedded header stands before the PCF part, user data may follow it.
    Embedded,
}

/// All that the caller says of a message's layout. It has no default, because
/// it is never guessed: a message of another layout is refused.
#[derive(Clone, Copy, Debug, PartialEq, Eq)]
pub struct Layout {
    pub form: Form,
}

impl Layout {
    pub const PLAIN: Layout = Layout { form: Form::Plain };
    pub const EMBEDDED: Layout = Layout {
        form: Form::Embedded,
    };

    /// Where the PCF header starts.
    #[inline]
    pub(crate) fn pcf_start(self) -> usize {
        match self.form {
            Form::Plain => 0,
            Form::Embedded => EMBEDDED_HEADER_LENGTH,
        }
    }

    /// The PCF part of the message in the lent buffer, or refusal 1, then 18.
    #[inline]
    pub(crate) fn pcf_part(self, buffer: &[u8], length: usize) -> Result<PcfPart<'_>, Refusal> {
        let start = self.pcf_start();
        if !(start + HEADER_LENGTH..=MESSAGE_MAX).contains(&length) {
            return Err(Refusal::whole(1));
        }
        let message = buffer.get(..length).ok_or(Refusal::whole(1))?;
        let end = match self.form {
            Form::Plain => length,
            Form::Embedded => struc_length(message)?,
        };
        Ok(PcfPart {
            bytes: message.get(..end).unwrap_or_default(),
            start,
        })
    }
}

/// The PCF part: header and structures.
#[derive(Clone, Copy)]
pub(crate) struct PcfPart<'a> {
    /// The message up to the part's end. What stands before the part is kept,
    /// so that places in here are places in the message.
    pub bytes: &'a [u8],
    /// Where the PCF header starts.
    pub start: usize,
}

impl PcfPart<'_> {
    /// The PCF header, or refusal 2.
    #[inline]
    pub(crate) fn sound_header(&self) -> Result<Header, Refusal> {
        let part = self.bytes.get(self.start..).unwrap_or_default();
        match Header::of(part) {
            Some(header) if header.is_sound() => Ok(header),
            _ => Err(Refusal::whole(2)),
        }
    }

    /// The place of the first structure.
    #[inline]
    pub(crate) fn first_place(&self) -> usize {
        self.start + HEADER_LENGTH
    }

    /// The place behind the last structure: the user data's, if there are any.
    #[inline]
    pub(crate) fn end(&self) -> usize {
        self.bytes.len()
    }
}
