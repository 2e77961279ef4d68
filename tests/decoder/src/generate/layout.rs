//! Layouts: the one that a message is built in, and another to read it in.

use super::random::Random;
use crate::layout::{Form, Layout};

/// One form as often as the other.
pub fn any_layout(random: &mut Random) -> Layout {
    if random.chance(50) {
        Layout::EMBEDDED
    } else {
        Layout::PLAIN
    }
}

/// A layout that a message of the given one is not in.
pub fn other_layout(layout: Layout) -> Layout {
    let form = match layout.form {
        Form::Plain => Form::Embedded,
        Form::Embedded => Form::Plain,
    };
    Layout { form }
}

/// Bytes before the PCF header, as the rules say and not the decoder.
pub(super) fn bytes_before(layout: Layout) -> usize {
    match layout.form {
        Form::Plain => 0,
        Form::Embedded => 32,
    }
}
