//! The n-th Activity group, and named strings.

use super::given::Given;
use super::{expect, fill};
use crate::ffi;
use decoder::{Named, Part, Sheet};

/// What was found under a name.
pub struct FoundName {
    pub length: usize,
    /// What is cut off at the string's end: 0 nothing, 1 blanks, 2 zero bytes,
    /// 3 both.
    pub cut: u32,
}

impl FoundName {
    /// Looks at all data of the string, whose length stands before them.
    fn new(buffer: &[u8], name: Part) -> Self {
        let (before, data) = buffer.split_at(name.place);
        let length = before.last_chunk().map(|four| u32::from_be_bytes(*four));
        let cut = &data[name.length..length.expect("a string") as usize];
        Self {
            length: name.length,
            cut: u32::from(cut.contains(&0x20)) + 2 * u32::from(cut.contains(&0x00)),
        }
    }
}

/// Gives the group, if there is such a one.
pub fn compare_group(given: Given, sheet: &Sheet, n: usize) -> Option<Part> {
    let (buffer, length, options) = (given.buffer, given.length, given.options());
    let found = decoder::activity_group(buffer, length, given.layout, sheet, n);
    let ((), part) = fill::between(fill::PART, |part| {
        ffi::activity_group(buffer, length, &sheet.identifiers, options, n, part)
    });
    assert_eq!(part, expect::group(found), "Activity group {n}");
    found
}

/// Gives what was found, if there is such a string. Where there is none the
/// part stays as it was.
pub fn compare_name(
    given: Given,
    sheet: &Sheet,
    (n, identifier): (usize, u32),
) -> Option<FoundName> {
    let (buffer, length, options) = (given.buffer, given.length, given.options());
    let named = decoder::named_string(buffer, length, given.layout, sheet, n, identifier);
    let sheet = &sheet.identifiers;
    let (found, part) = fill::between(fill::PART, |part| {
        ffi::named_string(buffer, length, sheet, options, n, identifier, part)
    });
    let (wanted, name) = match named {
        Named::InMessage(part) => (expect::part(part), Some(FoundName::new(buffer, part))),
        Named::Substitute => (fill::PART, None),
    };
    assert_eq!(
        found,
        name.is_some(),
        "named string {identifier} in Activity group {n}"
    );
    assert_eq!(
        part, wanted,
        "named string {identifier} in Activity group {n}"
    );
    name
}
