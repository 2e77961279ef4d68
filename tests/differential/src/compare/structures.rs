//! Check, tally, listing, and one structure at a time.

use super::given::Given;
use super::text::Text;
use super::{expect, fill};
use crate::ffi::{self, Answer};

/// Check, tally and listing of one message, with the names of the functions.
pub fn compare(given: Given, text: &mut Text) -> [(&'static str, Answer); 3] {
    [
        ("check", compare_check(given)),
        ("tally", compare_tally(given)),
        ("list", compare_list(given, text)),
    ]
}

pub fn compare_check(given: Given) -> Answer {
    let checked = decoder::check(given.buffer, given.length, given.layout);
    let answer = ffi::check(given.buffer, given.length, given.options());
    let wanted = expect::answer(checked.map(|structures| structures as u64));
    assert_eq!(answer, wanted, "check");
    answer
}

/// The tally answers as the check does; a refused one is all zero.
pub fn compare_tally(given: Given) -> Answer {
    let (buffer, length, layout) = (given.buffer, given.length, given.layout);
    let tally = decoder::tally(buffer, length, layout);
    let checked = decoder::check(buffer, length, layout);
    assert_eq!(
        tally.refusal,
        checked.err(),
        "the decoder's tally and check"
    );
    let (answer, counts) = fill::between(fill::COUNTS, |counts| {
        ffi::tally(buffer, length, given.options(), counts)
    });
    let wanted = expect::answer(checked.map(|structures| structures as u64));
    assert_eq!(answer, wanted, "tally's answer");
    assert_eq!(counts, tally.counts, "tally");
    answer
}

pub fn compare_list(given: Given, text: &mut Text) -> Answer {
    let listed = decoder::list(given.buffer, given.length, given.layout);
    let wanted = match &listed {
        Ok(listing) => Ok(listing.len() as u64),
        Err(refusal) => Err(*refusal),
    };
    let listing = listed.unwrap_or_default();
    let answer = text.list(given, listing.as_bytes());
    assert_eq!(answer, expect::answer(wanted), "list");
    answer
}

/// One structure at a place; a refusal leaves the row as it was.
pub fn compare_step(given: Given, place: usize, depth: u32) -> Answer {
    let (buffer, length) = (given.buffer, given.length);
    let stepped = decoder::step(buffer, length, given.layout, place, depth);
    let (answer, row) = fill::between(fill::ROW, |row| {
        ffi::step(buffer, length, given.options(), place, depth, row)
    });
    let wanted = expect::step_answer(&stepped, place);
    assert_eq!(answer, wanted, "step at {place}, depth {depth}");
    let wanted = stepped.map_or(fill::ROW, expect::row);
    assert_eq!(row, wanted, "row at {place}, depth {depth}");
    answer
}
