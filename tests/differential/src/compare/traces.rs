//! Read, forwarding and arrival.

use super::given::Given;
use super::{expect, fill};
use crate::ffi::{self, Answer, Contents};
use decoder::Sheet;

/// A refusal leaves values, fields and format as they were.
pub fn compare_read(given: Given, sheet: &Sheet) -> Answer {
    let wanted = decoder::read(given.buffer, given.length, given.layout, sheet);
    let (answer, contents) = read(given, sheet);
    let place = wanted.map(|contents| contents.user_data_place as u64);
    assert_eq!(answer, expect::answer(place), "read");
    let wanted = wanted.map_or(fill::CONTENTS, |contents| expect::contents(&contents));
    assert_eq!(contents, wanted, "read: values, fields, format");
    answer
}

/// What the library reads.
pub fn read(given: Given, sheet: &Sheet) -> (Answer, Contents) {
    let (buffer, length, options) = (given.buffer, given.length, given.options());
    let sheet = &sheet.identifiers;
    fill::between(fill::CONTENTS, |contents| {
        ffi::read(buffer, length, sheet, options, contents)
    })
}

/// Both forwarding decisions and arrival, with names that tell them apart.
pub fn compare_decisions(given: Given, sheet: &Sheet) -> [(&'static str, Answer); 3] {
    let forward = |supporting, entry| {
        let (buffer, length, layout) = (given.buffer, given.length, given.layout);
        let wanted = decoder::forwarding(buffer, length, layout, sheet, supporting);
        let options = given.forwarding(supporting);
        let answer = ffi::forward(buffer, length, &sheet.identifiers, options);
        assert_eq!(answer, expect::forwarding(wanted), "{entry}");
        (entry, answer)
    };
    [
        forward(false, "forward, not supporting"),
        forward(true, "forward"),
        ("arrive", compare_arrive(given, sheet)),
    ]
}

fn compare_arrive(given: Given, sheet: &Sheet) -> Answer {
    let (buffer, length) = (given.buffer, given.length);
    let wanted = decoder::arrival(buffer, length, given.layout, sheet);
    let answer = ffi::arrive(buffer, length, &sheet.identifiers, given.options());
    assert_eq!(answer, expect::arrival(wanted), "arrive");
    answer
}
