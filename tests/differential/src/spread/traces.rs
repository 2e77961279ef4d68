//! What happens to embedded traces: what is read, groups that are appended
//! before user data, and room that is met or missed by one byte.

use super::headed::{is_plain, size_number, Headed};
use super::Counts;
use crate::compare::given::Given;
use crate::ffi::Answer;
use decoder::generate::ComposeCase;
use decoder::{Applied, Event, EventRefusal, Layout, Part};

type Outcome = Result<Applied, EventRefusal>;

/// A trace that was read: its user data, and whether the sender's fields have a
/// byte that is not zero.
pub fn note_read(counts: &mut Counts, given: &Given, answer: Answer) {
    if is_plain(given.layout) || answer.is_refused() {
        return;
    }
    let user_data = given.length - answer.value() as usize;
    counts.note("read, user data", size_number(user_data));
    let fields = given.buffer[12..32].iter().any(|&byte| byte != 0);
    counts.note("read, fields", u32::from(fields));
}

/// An Activity group that was found: whether user data stand directly behind.
pub fn note_group(counts: &mut Counts, given: &Given, part: Part) {
    if let (false, Some(headed)) = (
        is_plain(given.layout),
        Headed::sound(given.buffer, given.length),
    ) {
        let last = part.place + part.length == headed.end && headed.user_data() > 0;
        counts.note("group before user data", u32::from(last));
    }
}

/// What an event found.
pub struct Before {
    headed: Option<Headed>,
    buffer: usize,
    group: usize,
}

impl Before {
    pub fn new(buffer: &[u8], length: usize, event: &Event) -> Before {
        Before {
            headed: Headed::sound(buffer, length),
            buffer: buffer.len(),
            group: match event {
                Event::Discontinuity(_) => 0,
                Event::Activity(activity) => activity.group.len(),
            },
        }
    }

    /// What became of the event.
    pub fn note(&self, counts: &mut Counts, layout: Layout, result: &Outcome) {
        let Some(headed) = &self.headed else { return };
        if is_plain(layout) {
            return;
        }
        let new_length = headed.length + self.group;
        let user_data = headed.user_data();
        match result {
            Ok(applied) if applied.appended => {
                counts.note("append, user data", size_number(user_data));
                if user_data > 0 {
                    let overlap = u32::from(user_data > self.group);
                    counts.note("append, old and new place overlap", overlap);
                }
                let fills = u32::from(new_length == self.buffer);
                counts.note("append fills the buffer", fills);
                counts.note("append to 65,536", u32::from(new_length == 65_536));
            }
            Err(refusal) if refusal.number == 12 => {
                note_no_room(counts, "12 by a byte", new_length, self.buffer);
                let part = headed.end + self.group;
                let fits = u32::from(part <= self.buffer.min(65_536));
                counts.note("12 by user data alone", fits);
            }
            _ => {}
        }
    }
}

/// Which bound was passed by one byte and no more: 1 the buffer's, 2 that of
/// 65,536 bytes, 0 neither.
fn note_no_room(counts: &mut Counts, entry: &'static str, length: usize, buffer: usize) {
    let bound = match length {
        _ if length == buffer + 1 && length <= 65_536 => 1,
        65_537 if length <= buffer => 2,
        _ => 0,
    };
    counts.note(entry, bound);
}

/// A composed message.
pub fn note_composed(counts: &mut Counts, case: &ComposeCase, answer: Answer) {
    let (user_data, size) = (case.user_data.len(), case.buffer.len());
    if is_plain(case.layout) {
        return;
    }
    let length = 212 + user_data;
    match answer.number() {
        0 => {
            counts.note("composed, user data", size_number(user_data));
            counts.note("composed to 65,536", u32::from(length == 65_536));
            counts.note("composed fills the buffer", u32::from(length == size));
        }
        12 => note_no_room(counts, "compose: 12 by a byte", length, size),
        _ => {}
    }
}
