//! A composed trace in both forms, for tests that know every byte of it.

use decoder::sample::MADE_UP;
use decoder::{Form, Layout};
use differential::compare::numbers::Spare;
use differential::ffi::{self, Answer, Around};

pub const FORMS: [Layout; 2] = [Layout::PLAIN, Layout::EMBEDDED];

/// Low detail, nothing counted, no limit, nothing accumulated, all, no.
pub const VALUES: [u32; 8] = [2, 0, 0, 0, 0, 0x10003, 0x100, 0x2000];

pub const USER_DATA: &[u8] = b"user!";

/// Encoding, CodedCharSetId and Flags.
pub const FIELDS: [u32; 3] = [273, 1208, 0x0102_0304];

pub const FORMAT: [u8; 8] = *b"MQSTR   ";

/// The library's message under the made-up sheet. A plain one has no user data,
/// though the same are lent.
pub fn composed(layout: Layout, values: [u32; 8], user: &[u8]) -> Vec<u8> {
    let length = match layout.form {
        Form::Plain => 180,
        Form::Embedded => 212 + user.len(),
    };
    let around = Around {
        fields: FIELDS,
        format: FORMAT,
        user,
    };
    let mut buffer = vec![0; length];
    let options = Spare::NONE.reading(layout);
    let answer = ffi::compose(&MADE_UP, &values, options, &around, &mut buffer);
    assert_eq!(answer, Answer::given(length as u64));
    buffer
}
