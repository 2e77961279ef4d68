//! Embedded messages in pieces: a change of the PCF part leaves the user data
//! as they are, and the header in front says where the part ends then.

use crate::layout::IDENTIFIER;
use crate::structure::{put_string, put_word, raise, word};
use decoder::generate::{any_embedding, embed, Random};
use decoder::{Form, Layout, EMBEDDED_HEADER_LENGTH, HEADER_LENGTH};

/// Where Version stands, and StrucLength.
const VERSION: usize = 4;
const STRUC_LENGTH: usize = 8;

/// Where the count stands in the PCF header.
const COUNT: usize = 32;

/// Where the PCF part ends by the message's own word, or the whole message's end
/// where that cannot be. A part has no fewer bytes than its header.
pub fn claimed_end(message: &[u8]) -> usize {
    let least = EMBEDDED_HEADER_LENGTH + HEADER_LENGTH;
    let end = word(message, STRUC_LENGTH) as usize;
    if (least..=message.len()).contains(&end) {
        end
    } else {
        message.len()
    }
}

/// Changes the PCF part alone. An embedded message has a sound embedded header
/// then, whatever it had before.
pub fn on_part(message: &mut Vec<u8>, layout: Layout, change: impl FnOnce(&mut Vec<u8>)) {
    if layout.form == Form::Plain {
        return change(message);
    }
    let end = claimed_end(message);
    let user_data = message.split_off(end);
    let least = message.len().max(EMBEDDED_HEADER_LENGTH);
    message.resize(least, 0);
    let mut part = message.split_off(EMBEDDED_HEADER_LENGTH);
    part.resize(part.len().max(HEADER_LENGTH), 0);
    change(&mut part);
    // StrucLength is a multiple of 4.
    part.truncate(part.len() & !3);
    message.append(&mut part);
    message[..IDENTIFIER.len()].copy_from_slice(&IDENTIFIER);
    put_word(message, VERSION, 1);
    let end = message.len() as u32;
    put_word(message, STRUC_LENGTH, end);
    message.extend(user_data);
}

/// The same PCF part in the other form: with any fields and a few user data, or
/// without them.
pub fn turn(message: &mut Vec<u8>, layout: Layout, random: &mut Random) {
    match layout.form {
        Form::Plain => {
            let length = random.pick(&[0, 0, 1, 5, 16, 40]);
            let user_data = random.bytes(length);
            *message = embed(&any_embedding(random), message, &user_data);
        }
        Form::Embedded => {
            message.truncate(claimed_end(message));
            message.drain(..EMBEDDED_HEADER_LENGTH.min(message.len()));
        }
    }
}

/// One field of the embedded header: identifier, Version, StrucLength, or one
/// that no function judges.
pub fn change_header(message: &mut [u8], random: &mut Random) {
    let any = random.word();
    match random.below(8) {
        0 => {
            let place = random.below(IDENTIFIER.len());
            if let Some(byte) = message.get_mut(place) {
                *byte = any as u8;
            }
        }
        1 => put_word(message, VERSION, random.pick(&[0, 1, 2, 1 << 24, any])),
        2..=5 => change_end(message, random),
        _ => {
            let place = random.pick(&[12, 16, 20, 24, 28]);
            put_word(message, place, random.pick(&[0, 3, 16, 20, u32::MAX, any]));
        }
    }
}

/// StrucLength near the old one, near the message's end, at the least, far off.
fn change_end(message: &mut [u8], random: &mut Random) {
    let (old, length) = (word(message, STRUC_LENGTH), message.len() as u32);
    let near = random.pick(&[1, 2, 4, 16, 20, 36]);
    let far = random.pick(&[0, 64, 1 << 31, old | 1 << 31, u32::MAX - 3]);
    let end = random.pick(&[
        old.wrapping_add(near),
        old.wrapping_sub(near),
        length & !3,
        (length & !3) + 4,
        68,
        far,
    ]);
    put_word(message, STRUC_LENGTH, end);
}

/// Other user data: none, fewer, more, or these.
pub fn change_user_data(message: &mut Vec<u8>, new: Vec<u8>, random: &mut Random) {
    let end = claimed_end(message);
    let size = message.len() - end;
    match random.below(5) {
        0 => message.truncate(end),
        1 => message.truncate(end + random.below(size)),
        2 => {
            let more = random.between(1, 40);
            message.extend(random.bytes(more));
        }
        _ => {
            message.truncate(end);
            message.extend(new);
        }
    }
}

/// Puts one string structure at the part's end so that the message has `size`
/// bytes, or up to three fewer, counts it, and raises StrucLength.
pub fn swell_part(message: &mut Vec<u8>, size: usize) {
    let before = message.len();
    let end = claimed_end(message);
    let count = EMBEDDED_HEADER_LENGTH + COUNT;
    put_string(message, count, end, size.saturating_sub(before) & !3);
    let more = message.len() - before;
    raise(message, STRUC_LENGTH, more as u32);
}

/// Appends user data so that the message has `size` bytes.
pub fn swell_user_data(message: &mut Vec<u8>, size: usize) {
    let longer = message.iter().copied().cycle().take(size);
    if message.len() < size {
        *message = longer.collect();
    }
}
