//! The lent Activity group (refusal 9).

use crate::trace::ACTIVITY_GROUP;
use crate::walk::walk_one;

/// Fewest bytes of a lent group: a group with count 0.
pub const LENT_MIN: usize = 16;

/// Most bytes of a lent group, so that a report of it is a message too.
pub const LENT_MAX: usize = 65_500;

/// Whether the bytes are one whole group 8005, sound as if top-level, with
/// nothing after it.
pub fn lent_group_is_sound(group: &[u8]) -> bool {
    if !(LENT_MIN..=LENT_MAX).contains(&group.len()) {
        return false;
    }
    let mut activity = false;
    let walked = walk_one(group, |row| {
        if row.place == 0 {
            activity = row.is_group() && row.parameter == ACTIVITY_GROUP;
        }
    });
    walked.is_ok() && activity
}
