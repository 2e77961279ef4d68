//! Compose, read, decisions, parts and events.

use super::answer::Answer;
use super::embedded::{Around, Fields, Format};
use super::lend::{start, start_mut};
use super::raw::{self, Done, Part};

/// A sheet, or the eight values.
pub type Eight = [u32; 8];

/// What read writes. For C these are three arrays; they lie here one behind the
/// other without a gap, so that a number too many meets the next one.
#[repr(C)]
#[derive(Clone, Copy, Debug, PartialEq, Eq)]
pub struct Contents {
    pub values: Eight,
    pub fields: Fields,
    pub format: Format,
}

/// An activity's arguments.
#[derive(Clone, Copy, Debug)]
pub struct Activity<'a> {
    pub options: u32,
    pub level: u32,
    pub group: &'a [u8],
}

/// The message's length, or 17, 8, 12.
pub fn compose(
    sheet: &Eight,
    values: &Eight,
    options: u32,
    around: &Around,
    buffer: &mut [u8],
) -> Answer {
    let size = buffer.len();
    // SAFETY: the arrays have as many numbers as the header says, and each
    // pointer and its size are one slice; all are only read but for the buffer,
    // which as `&mut` lies apart.
    Answer(unsafe {
        raw::gw_compose(
            sheet.as_ptr(),
            values.as_ptr(),
            options,
            around.fields.as_ptr(),
            around.format.as_ptr(),
            start(around.user),
            around.user.len(),
            start_mut(buffer),
            size,
        )
    })
}

/// 180, or 17, 8, 12.
pub fn compose_plain(sheet: &Eight, values: &Eight, buffer: &mut [u8]) -> Answer {
    let (sheet, values, size) = (sheet.as_ptr(), values.as_ptr(), buffer.len());
    // SAFETY: the arrays have eight numbers each and are only read; pointer and
    // size are one slice, which as `&mut` lies apart.
    Answer(unsafe { raw::gw_compose_plain(sheet, values, start_mut(buffer), size) })
}

/// The user data's place and the contents, or 17, 1, 18, 2 to 8.
pub fn read(
    buffer: &[u8],
    length: usize,
    sheet: &Eight,
    options: u32,
    contents: &mut Contents,
) -> Answer {
    let (values, fields) = (&mut contents.values, &mut contents.fields);
    // SAFETY: pointer and size are one slice, which is only read, as is the
    // sheet of eight; the three arrays have as many numbers as the header says,
    // and as `&mut` they lie apart.
    Answer(unsafe {
        raw::gw_read(
            start(buffer),
            buffer.len(),
            length,
            sheet.as_ptr(),
            options,
            values.as_mut_ptr(),
            fields.as_mut_ptr(),
            contents.format.as_mut_ptr(),
        )
    })
}

/// Forward, or a refusal.
pub fn forward(buffer: &[u8], length: usize, sheet: &Eight, options: u32) -> Answer {
    let (from, size, sheet) = (start(buffer), buffer.len(), sheet.as_ptr());
    // SAFETY: pointer and size are one slice; it and the sheet are only read.
    Answer(unsafe { raw::gw_forward(from, size, length, sheet, options) })
}

/// Put or withhold, or a refusal.
pub fn arrive(buffer: &[u8], length: usize, sheet: &Eight, options: u32) -> Answer {
    let (from, size, sheet) = (start(buffer), buffer.len(), sheet.as_ptr());
    // SAFETY: pointer and size are one slice; it and the sheet are only read.
    Answer(unsafe { raw::gw_arrive(from, size, length, sheet, options) })
}

/// Writes where the n-th Activity group is.
pub fn activity_group(
    buffer: &[u8],
    length: usize,
    sheet: &Eight,
    options: u32,
    n: usize,
    part: &mut Part,
) {
    let (from, size, sheet) = (start(buffer), buffer.len(), sheet.as_ptr());
    // SAFETY: pointer and size are one slice; it and the sheet are only read.
    // The part is laid out as in C, and as `&mut` it lies apart.
    unsafe { raw::gw_activity_group(from, size, length, sheet, options, n, part) }
}

/// Whether there is such a string; if so, writes where it is.
pub fn named_string(
    buffer: &[u8],
    length: usize,
    sheet: &Eight,
    options: u32,
    n: usize,
    identifier: u32,
    part: &mut Part,
) -> bool {
    let (from, size, sheet) = (start(buffer), buffer.len(), sheet.as_ptr());
    // SAFETY: pointer and size are one slice; it and the sheet are only read.
    // The part is laid out as in C, and as `&mut` it lies apart.
    let found =
        unsafe { raw::gw_named_string(from, size, length, sheet, options, n, identifier, part) };
    assert!(found <= 1, "a bool of C that is {found}");
    found == 1
}

/// The message's length, or a refusal.
pub fn discontinuity(
    buffer: &mut [u8],
    length: usize,
    sheet: &Eight,
    options: u32,
    done: &mut Done,
) -> Answer {
    let (size, sheet) = (buffer.len(), sheet.as_ptr());
    // SAFETY: pointer and size are one slice; the sheet is only read. Slice and
    // `done`, which is laid out as in C, are `&mut` and so lie apart.
    Answer(unsafe { raw::gw_discontinuity(start_mut(buffer), size, length, sheet, options, done) })
}

/// The message's new length, or a refusal.
pub fn activity(
    buffer: &mut [u8],
    length: usize,
    sheet: &Eight,
    event: &Activity,
    report: &mut [u8],
    done: &mut Done,
) -> Answer {
    let (size, report_size) = (buffer.len(), report.len());
    // SAFETY: each pointer and its size are one slice; sheet and group are only
    // read. Message, report and `done` are `&mut` and so lie apart.
    Answer(unsafe {
        raw::gw_activity(
            start_mut(buffer),
            size,
            length,
            sheet.as_ptr(),
            event.options,
            event.level,
            start(event.group),
            event.group.len(),
            start_mut(report),
            report_size,
            done,
        )
    })
}
