//! How often the generated cases have what only the embedded form has: causes
//! of 18, user data of each size, places around the PCF part's end, groups
//! appended before user data, and room that is met or missed by one byte.
//!
//! What a case is like is read off its bytes here, not asked of the decoder.

use crate::helpers::get;
use crate::spread::Spread;
use decoder::generate::{ComposeCase, Lent};
use decoder::*;

/// The numbers of an embedded header, where the length is no reason for 1.
struct Headed {
    length: usize,
    end: usize,
    wrong_bytes: Vec<usize>,
    version: u32,
}

impl Headed {
    fn of(buffer: &[u8], length: usize) -> Option<Headed> {
        if length > buffer.len() || !(68..=65_536).contains(&length) {
            return None;
        }
        Some(Headed {
            length,
            end: get(buffer, 8) as usize,
            wrong_bytes: (0..4).filter(|&at| buffer[at] != b"EPH "[at]).collect(),
            version: get(buffer, 4),
        })
    }

    /// Which of the causes of 18 it has: identifier, Version, StrucLength below
    /// 68, above the message, no multiple of 4.
    fn causes(&self) -> Vec<u8> {
        let causes = [
            !self.wrong_bytes.is_empty(),
            self.version != 1,
            self.end < 68,
            self.end > self.length,
            !self.end.is_multiple_of(4),
        ];
        (0..5).filter(|&at| causes[at as usize]).collect()
    }

    fn sound(buffer: &[u8], length: usize) -> Option<Headed> {
        Headed::of(buffer, length).filter(|headed| headed.causes().is_empty())
    }
}

/// Whether a structure could be read at the place, were the message's end the
/// PCF part's: a plain step doesn't look at the header.
fn readable(lent: &Lent, place: usize) -> bool {
    step(&lent.buffer, lent.length, Layout::PLAIN, place, 1).is_ok()
}

pub fn note_header(spread: &mut Spread, lent: &Lent) {
    if lent.length == 67 || lent.length == 68 {
        spread.note("length 67, 68", (lent.length - 67) as u8);
    }
    let Some(headed) = Headed::of(&lent.buffer, lent.length) else {
        return;
    };
    for (number, end) in [64, 68, headed.length, headed.length + 4]
        .into_iter()
        .enumerate()
    {
        if headed.end == end {
            spread.note("StrucLength", number as u8);
        }
    }
    match headed.causes()[..] {
        [] => note_fields(spread, &lent.buffer),
        [cause] => {
            spread.note("18 by", cause);
            note_cause(spread, &headed, cause, lent.buffer.len());
        }
        _ => spread.note("18 by", 5),
    }
}

/// What is wrong where only one thing is.
fn note_cause(spread: &mut Spread, headed: &Headed, cause: u8, size: usize) {
    match (cause, &headed.wrong_bytes[..]) {
        (0, &[place]) => spread.note("identifier byte", place as u8),
        (1, _) => spread.note("Version", headed.version.min(3) as u8),
        (3, _) => {
            let by = if headed.end <= size {
                0
            } else if headed.end <= headed.length + 4 {
                1
            } else {
                2 + u8::from(headed.end >= 1 << 31)
            };
            spread.note("above", by);
        }
        (4, _) => spread.note("no multiple", (headed.end % 4) as u8),
        _ => {}
    }
}

/// The sender's fields of a sound header: mostly some bytes are not zero.
fn note_fields(spread: &mut Spread, buffer: &[u8]) {
    let any = buffer[12..32].iter().any(|&byte| byte != 0);
    spread.note("sender's fields", u8::from(any));
}

pub fn note_message(spread: &mut Spread, lent: &Lent, checked: Result<usize, Refusal>) {
    let Some(headed) = Headed::sound(&lent.buffer, lent.length) else {
        return;
    };
    let user_data = headed.length - headed.end;
    match checked {
        Ok(_) => {
            spread.note("sound, user data", size_number(user_data));
            spread.note("remainder", (user_data % 4) as u8);
            let full = user_data > 0 && headed.length == 65_536;
            spread.note("user data fill", u8::from(full));
            if user_data >= 16 {
                let alike = readable(lent, headed.end);
                spread.note("readable user data", u8::from(alike));
            }
        }
        Err(refusal) if user_data > 0 => {
            let place = refusal.place;
            match refusal.number {
                3 => spread.note("3 by the part's end", u8::from(readable(lent, place))),
                5 => spread.note("5 before user data", 1),
                _ => {}
            }
        }
        Err(_) => {}
    }
}

/// None, 1, 2, 3, 5, others below 64, more.
fn size_number(user_data: usize) -> u8 {
    match user_data {
        0..=3 => user_data as u8,
        5 => 4,
        4..64 => 5,
        _ => 6,
    }
}

/// In the embedded header, in the PCF header, in the part, at its end, in the
/// user data, at the message's end or behind, huge.
fn place_number(headed: &Headed, place: usize) -> u8 {
    match place {
        0..32 => 0,
        32..68 => 1,
        _ if place < headed.end => 2,
        _ if place == headed.end => 3,
        _ if place < headed.length => 4,
        _ if place < 1 << 31 => 5,
        _ => 6,
    }
}

pub fn note_step(spread: &mut Spread, lent: &Lent, place: usize, found: bool) {
    let Some(headed) = Headed::sound(&lent.buffer, lent.length) else {
        return;
    };
    let number = place_number(&headed, place);
    spread.note("step place", number);
    if found {
        spread.note("step found", number);
    }
    let lured = (headed.end..headed.length).contains(&place) && readable(lent, place);
    spread.note("step lured", u8::from(lured));
}

/// What an event found.
pub struct Before {
    headed: Option<Headed>,
    buffer: usize,
    group: usize,
}

impl Before {
    pub fn new(buffer: &[u8], length: usize, event: &Event) -> Before {
        Before {
            headed: Headed::sound(buffer, length),
            buffer: buffer.len(),
            group: match event {
                Event::Discontinuity(_) => 0,
                Event::Activity(activity) => activity.group.len(),
            },
        }
    }
}

pub fn note_event(spread: &mut Spread, before: &Before, answer: Result<Applied, EventRefusal>) {
    let Some(headed) = &before.headed else { return };
    let new_length = headed.length + before.group;
    let user_data = headed.length - headed.end;
    match answer {
        Ok(Applied { appended: true, .. }) => {
            spread.note("append, user data", size_number(user_data));
            if user_data > 0 {
                spread.note("overlap", u8::from(user_data > before.group));
            }
            spread.note("fills the buffer", u8::from(new_length == before.buffer));
            spread.note("fills a message", u8::from(new_length == 65_536));
        }
        Err(EventRefusal { number: 12, .. }) => {
            let short = new_length == before.buffer + 1 && new_length <= 65_536;
            spread.note("12 by a byte of buffer", u8::from(short));
            let long = new_length == 65_537 && new_length <= before.buffer;
            spread.note("12 by a byte of 65,536", u8::from(long));
            let part = headed.end + before.group;
            let fits = part <= before.buffer.min(65_536);
            spread.note("12, part fits", u8::from(fits));
        }
        _ => {}
    }
}

pub fn note_composed(spread: &mut Spread, case: &ComposeCase, answer: Result<usize, Refusal>) {
    let (user_data, size) = (case.user_data.len(), case.buffer.len());
    let length = 212 + user_data;
    match answer {
        Ok(_) => {
            spread.note("composed, user data", size_number(user_data));
            spread.note("composed 65,536", u8::from(length == 65_536));
            spread.note("composed exactly", u8::from(length == size));
        }
        Err(Refusal { number: 12, .. }) => {
            let short = length == size + 1 && length <= 65_536;
            spread.note("compose, byte of buffer", u8::from(short));
            let long = length == 65_537 && length <= size;
            spread.note("compose, byte of 65,536", u8::from(long));
        }
        Err(_) => {}
    }
}

/// Each kind of case is there at least so often, of all with an embedded layout
/// among 40,000.
pub fn demand_all(spread: &Spread) {
    for (entry, numbers, least) in [
        ("18 by", 6, 40),
        ("identifier byte", 4, 15),
        ("above", 4, 20),
        ("StrucLength", 4, 25),
        ("length 67, 68", 2, 20),
        ("sender's fields", 2, 100),
        ("sound, user data", 7, 80),
        ("remainder", 4, 300),
        ("user data fill", 2, 30),
        ("readable user data", 2, 400),
        ("3 by the part's end", 2, 30),
        ("step place", 7, 150),
        ("step lured", 2, 100),
        ("append, user data", 7, 15),
        ("overlap", 2, 150),
        ("fills the buffer", 2, 100),
        ("fills a message", 2, 10),
        ("12 by a byte of buffer", 2, 80),
        ("12 by a byte of 65,536", 2, 15),
        ("12, part fits", 2, 200),
        ("composed, user data", 7, 30),
        ("composed 65,536", 2, 10),
        ("composed exactly", 2, 100),
        ("compose, byte of buffer", 2, 50),
        ("compose, byte of 65,536", 2, 5),
    ] {
        let numbers: Vec<u8> = (0..numbers).collect();
        spread.demand(entry, &numbers, least);
    }
    // Version 1 is no fault, 3 stands for all others; a remainder of 0 is none.
    spread.demand("Version", &[0, 2, 3], 10);
    spread.demand("no multiple", &[1, 2, 3], 20);
    spread.demand("5 before user data", &[1], 50);
    // Both headers can be read as structures; behind the part there are none.
    spread.demand("step found", &[0, 1, 2], 50);
}
