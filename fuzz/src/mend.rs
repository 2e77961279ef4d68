//! Sound messages of what a mutation left: counts are made to say how many
//! structures are there, and what stands behind the first faulty one goes.

use crate::embedded::on_part;
use crate::structure::put_word;
use decoder::{Header, Layout, HEADER_LENGTH};

/// A count that is being met.
struct Open {
    place: usize,
    due: u32,
    met: u32,
}

/// Mends a message; its header becomes a trace's, and an embedded header in
/// front of that says where the structures end. User data stay.
pub fn mend(message: &mut Vec<u8>, layout: Layout) {
    on_part(message, layout, mend_part);
}

/// Mends a PCF part, which a plain message is as a whole.
fn mend_part(part: &mut Vec<u8>) {
    part.resize(part.len().max(HEADER_LENGTH), 0);
    for (index, field) in Header::TRACE_ROUTE.fields().into_iter().enumerate() {
        put_word(part, 4 * index, field);
    }
    mend_structures(part, u32::MAX);
}

/// Mends a lent group as the only structure of a message.
pub fn mend_group(group: &mut Vec<u8>) {
    let mut message = vec![0; HEADER_LENGTH];
    message.append(group);
    mend_structures(&mut message, 1);
    *group = message.split_off(HEADER_LENGTH);
}

/// Keeps structures while they are sound, at most `due` at top level.
fn mend_structures(part: &mut Vec<u8>, due: u32) {
    let count = |place, due| Open { place, due, met: 0 };
    let mut open = vec![count(32, due)];
    let mut place = HEADER_LENGTH;
    loop {
        let depth = open.len() as u32;
        let Some(group) = open.last_mut() else { break };
        if group.met == group.due {
            if depth == 1 {
                break;
            }
            open.pop();
            continue;
        }
        let step = decoder::step(part, part.len(), Layout::PLAIN, place, depth);
        let Ok((row, behind)) = step else { break };
        group.met += 1;
        if let Some(members) = row.count {
            open.push(count(row.place + 12, members));
        }
        place = behind;
    }
    part.truncate(place);
    for group in open {
        put_word(part, group.place, group.met);
    }
}
