//! What generated messages are like that a call names embedded: causes of 18,
//! sizes of user data, and places around the PCF part's end.

use super::headed::{is_plain, size_number, Headed};
use super::Counts;
use crate::compare::given::Given;
use crate::ffi::Answer;
use decoder::Layout;

/// Whether a structure could be read at the place if the message's end were the
/// PCF part's: one step of the plain form does not look at the header.
fn readable(given: &Given, place: usize) -> bool {
    decoder::step(given.buffer, given.length, Layout::PLAIN, place, 1).is_ok()
}

/// A checked message.
pub fn note_checked(counts: &mut Counts, given: &Given, answer: Answer) {
    if is_plain(given.layout) {
        return;
    }
    if let 67 | 68 = given.length {
        counts.note("length 67, 68", given.length as u32);
    }
    let Some(headed) = Headed::of(given.buffer, given.length) else {
        return;
    };
    let ends = [64, 68, headed.length, headed.length + 4];
    for (number, end) in (0..).zip(ends) {
        if headed.end == end {
            counts.note("StrucLength", number);
        }
    }
    match headed.causes()[..] {
        [] => note_part(counts, given, &headed, answer),
        [cause] => {
            counts.note("18 by", cause);
            note_cause(counts, &headed, cause, given.buffer.len());
        }
        _ => counts.note("18 by", 5),
    }
}

/// What is wrong where only one thing is. A StrucLength above the message is in
/// the buffer, above it by a word, far above it, or 2^31 and more.
fn note_cause(counts: &mut Counts, headed: &Headed, cause: u32, size: usize) {
    match (cause, &headed.wrong_bytes[..]) {
        (0, &[place]) => counts.note("18 by identifier byte", place as u32),
        (1, _) => counts.note("18 by Version", headed.version.min(3)),
        (3, _) => {
            let above = match headed.end {
                end if end <= size => 0,
                end if end <= headed.length + 4 => 1,
                end if end < 1 << 31 => 2,
                _ => 3,
            };
            counts.note("18 by StrucLength above", above);
        }
        (4, _) => counts.note("18 by remainder", (headed.end % 4) as u32),
        _ => {}
    }
}

/// What the PCF part and the user data behind it are like.
fn note_part(counts: &mut Counts, given: &Given, headed: &Headed, answer: Answer) {
    let user_data = headed.user_data();
    match answer.number() {
        0 => {
            counts.note("sound, user data", size_number(user_data));
            let full = user_data > 0 && headed.length == 65_536;
            counts.note("user data to 65,536", u32::from(full));
            if user_data >= 16 {
                let alike = readable(given, headed.end);
                counts.note("user data like a structure", u32::from(alike));
            }
        }
        3 if user_data > 0 => {
            let whole = readable(given, answer.value() as usize);
            counts.note("3 by the part's end", u32::from(whole));
        }
        5 if user_data > 0 => counts.note("5 before user data", 1),
        _ => {}
    }
}

/// In the embedded header, in the PCF header, in the part, at its end, in the
/// user data, at the message's end or behind, huge.
fn place_number(headed: &Headed, place: usize) -> u32 {
    match place {
        0..32 => 0,
        32..68 => 1,
        _ if place < headed.end => 2,
        _ if place == headed.end => 3,
        _ if place < headed.length => 4,
        _ if place < 1 << 31 => 5,
        _ => 6,
    }
}

/// One structure: where it was asked for, and where there was one.
pub fn note_step(counts: &mut Counts, given: &Given, place: usize, answer: Answer) {
    let Some(headed) = Headed::sound(given.buffer, given.length) else {
        return;
    };
    if is_plain(given.layout) {
        return;
    }
    let number = place_number(&headed, place);
    counts.note("step at", number);
    if !answer.is_refused() {
        counts.note("step found", number);
    }
    let lured = (headed.end..headed.length).contains(&place) && readable(given, place);
    counts.note("step lured", u32::from(lured));
}
