//! The 36-byte PCF header: its nine fields, its soundness, and the fixed
//! headers of trace-route messages and activity reports.

use crate::word::{put_word, word};

/// Bytes of the header.
pub const HEADER_LENGTH: usize = 36;

/// Most bytes of a message, with all that stands around its PCF part.
pub const MESSAGE_MAX: usize = 65_536;

/// Counts and lengths from here on are faults.
pub(crate) const COUNT_BOUND: u32 = 1 << 31;

/// Where the ParameterCount stands, from the header's start.
pub(crate) const COUNT_PLACE: usize = 32;

/// The nine fields in their order.
#[derive(Clone, Copy, Debug, PartialEq, Eq)]
pub struct Header {
    pub kind: u32,
    pub struc_length: u32,
    pub version: u32,
    pub command: u32,
    pub msg_seq_number: u32,
    pub control: u32,
    pub comp_code: u32,
    pub reason: u32,
    pub parameter_count: u32,
}

impl Header {
    /// Header of a trace-route message; its count is at least 1 and otherwise free.
    pub const TRACE_ROUTE: Header = Header::fixed(10, 75);
    /// Header of an activity report, which holds one Activity group.
    pub const REPORT: Header = Header::fixed(12, 69);

    const fn fixed(kind: u32, command: u32) -> Header {
        Header {
            kind,
            struc_length: HEADER_LENGTH as u32,
            version: 3,
            command,
            msg_seq_number: 1,
            control: 1,
            comp_code: 0,
            reason: 0,
            parameter_count: 1,
        }
    }

    /// The header at the start of the bytes, none where they are too few.
    pub fn of(bytes: &[u8]) -> Option<Header> {
        Some(Header {
            kind: word(bytes, 0)?,
            struc_length: word(bytes, 4)?,
            version: word(bytes, 8)?,
            command: word(bytes, 12)?,
            msg_seq_number: word(bytes, 16)?,
            control: word(bytes, 20)?,
            comp_code: word(bytes, 24)?,
            reason: word(bytes, 28)?,
            parameter_count: word(bytes, COUNT_PLACE)?,
        })
    }

    /// The nine fields as they stand in the message.
    pub fn fields(&self) -> [u32; 9] {
        [
            self.kind,
            self.struc_length,
            self.version,
            self.command,
            self.msg_seq_number,
            self.control,
            self.comp_code,
            self.reason,
            self.parameter_count,
        ]
    }

    /// Writes the fields at the start of the bytes.
    pub(crate) fn put(&self, bytes: &mut [u8]) {
        for (index, field) in self.fields().into_iter().enumerate() {
            put_word(bytes, 4 * index, field);
        }
    }

    /// Only these three fields are judged in a message of any type.
    pub fn is_sound(&self) -> bool {
        self.struc_length == HEADER_LENGTH as u32
            && (1..=3).contains(&self.version)
            && self.parameter_count < COUNT_BOUND
    }

    /// Whether this is a trace-route header; every field but the count is fixed.
    pub fn is_trace_route(&self) -> bool {
        let wanted = Header {
            parameter_count: self.parameter_count,
            ..Header::TRACE_ROUTE
        };
        *self == wanted && self.parameter_count >= 1
    }
}
