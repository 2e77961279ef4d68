//! What stands in a lent place before a call.

use crate::ffi::{Contents, Done, Part, Row, KINDS};
use std::fmt::Debug;
use std::hint::black_box;

/// No message and no answer has this as any number.
const FILL: u64 = 0xA5A5_5A5A_C3C3_3C3C;

pub const COUNTS: [u32; KINDS] = [FILL as u32; KINDS];

pub const CONTENTS: Contents = Contents {
    values: [FILL as u32; 8],
    fields: [FILL as u32; 3],
    format: (FILL >> 16).to_be_bytes(),
};

pub const ROW: Row = Row {
    depth: FILL,
    place: FILL,
    kind: FILL,
    parameter: FILL,
    length: FILL,
    members: FILL,
    next: FILL,
};

pub const PART: Part = Part {
    place: FILL,
    length: FILL,
};

pub const DONE: Done = Done {
    counter: FILL,
    appended: FILL,
    report_length: FILL,
    message_length: FILL,
};

/// Lends a place between two others, which have to stay, and gives what the
/// call answered and left there.
#[track_caller]
pub fn between<T: Copy + Debug + PartialEq, A>(
    filled: T,
    call: impl FnOnce(&mut T) -> A,
) -> (A, T) {
    let mut lent = [filled; 3];
    let answer = call(&mut lent[1]);
    // The compiler must not conclude that the others cannot have changed.
    let [before, written, behind] = black_box(lent);
    assert_eq!(before, filled, "what stands before a lent place");
    assert_eq!(behind, filled, "what stands behind a lent place");
    (answer, written)
}
