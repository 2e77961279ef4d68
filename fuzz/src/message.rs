//! What the choices make of the input's message: its size, the length that is
//! given for it, places in it, and what compose is given.

use crate::embedded::{claimed_end, swell_part, swell_user_data};
use crate::layout::{Choice, Input};
use crate::structure::swell;
use decoder::{Form, Layout};

fn is_embedded(input: &Input) -> bool {
    input.layout().form == Form::Embedded
}

/// The message as it is, or so long that the group just fits behind it or just
/// doesn't. An embedded one may be long for its part or for its user data.
pub(crate) fn message(input: &Input, group: usize) -> Vec<u8> {
    let mut message = input.message.clone();
    let swelling = input.choice(Choice::Swell);
    let size = match swelling {
        1 => 65_536,
        2 => 65_532,
        3 | 8 => 65_536_usize.saturating_sub(group),
        4 => 65_540_usize.saturating_sub(group),
        5 => 65_540,
        6 => 65_536,
        7 => 65_535,
        9 => 65_537_usize.saturating_sub(group),
        10 => 65_537,
        _ => 0,
    };
    match swelling {
        1..=5 if is_embedded(input) => swell_part(&mut message, size),
        6..=10 if is_embedded(input) => swell_user_data(&mut message, size),
        1..=5 => swell(&mut message, 32, size),
        _ => {}
    }
    message
}

/// The user data that compose is given: the message's own, or what would be
/// these in a plain one; or so many that the composed message has 65,535 bytes,
/// or one more, or another one.
pub(crate) fn user_data(input: &Input) -> Vec<u8> {
    let message = &input.message;
    let place = if is_embedded(input) {
        claimed_end(message)
    } else {
        68
    };
    let own = message.get(place..).unwrap_or_default().to_vec();
    let size = match input.choice(Choice::Swell) {
        1 | 6 => 65_324,
        2 | 7 => 65_323,
        5 | 10 => 65_325,
        _ => return own,
    };
    own.into_iter().chain(65..=90).cycle().take(size).collect()
}

/// Bytes behind the message: mostly enough for both activities.
pub(crate) fn room(input: &Input, group: usize) -> usize {
    match input.choice(Choice::Room) {
        1 => 0,
        2 => group.saturating_sub(1),
        3 => group,
        4 => (2 * group).saturating_sub(1),
        5 => 2 * group,
        6 => 1,
        other => 2 * group + usize::from(other),
    }
}

pub(crate) fn length(input: &Input, message: &[u8], size: usize) -> usize {
    let (whole, end) = (message.len(), claimed_end(message));
    match input.choice(Choice::Length) {
        1 => whole.saturating_sub(1),
        2 => whole.saturating_sub(4),
        3 => whole + 1,
        4 => whole + 4,
        5 => size,
        6 => size + 1,
        7 => 0,
        8 => 35,
        9 => 36,
        10 => 65_536,
        11 => 65_537,
        12 => 1 << 32,
        13 => usize::MAX,
        14 => usize::MAX - 35,
        15 => input.free() as usize,
        16 if is_embedded(input) => 67,
        17 if is_embedded(input) => 68,
        18 if is_embedded(input) => end,
        19 if is_embedded(input) => end.saturating_sub(1),
        20 if is_embedded(input) => end + 1,
        21 if is_embedded(input) => usize::MAX - 67,
        _ => whole,
    }
}

pub(crate) fn composed(input: &Input, user_data: usize) -> usize {
    let length = if is_embedded(input) {
        212 + user_data
    } else {
        180
    };
    match input.choice(Choice::Composed) {
        0 => length + 20,
        1 => length,
        2 => length - 1,
        3 => length + 1,
        4 => 65_537,
        other => usize::from(other),
    }
}

/// The place of the first structure.
pub(crate) fn first_place(layout: Layout) -> usize {
    match layout.form {
        Form::Plain => 36,
        Form::Embedded => 68,
    }
}

pub(crate) fn place(input: &Input, message: &[u8], length: usize) -> usize {
    let end = claimed_end(message);
    match input.choice(Choice::Place) {
        0 => first_place(input.layout()),
        1 => 0,
        2 => length,
        3 => length.saturating_sub(1),
        4 => length.saturating_sub(16),
        5 => length.saturating_add(1),
        6 => usize::MAX,
        7 => usize::MAX - 15,
        8 => input.free() as usize,
        9 if is_embedded(input) => end,
        10 if is_embedded(input) => end.saturating_sub(16),
        11 if is_embedded(input) => end + 1,
        // Where the sender's fields begin, which may look like a structure.
        12 if is_embedded(input) => 12,
        other => 4 * usize::from(other),
    }
}
