//! Numbers in bytes, and messages that are to be long.

/// The number at a place; 0 where there is none.
pub fn word(bytes: &[u8], place: usize) -> u32 {
    let four = bytes.get(place..).and_then(|rest| rest.first_chunk());
    four.map_or(0, |four| u32::from_be_bytes(*four))
}

/// Writes a number, where there is room for it.
pub fn put_word(bytes: &mut [u8], place: usize, number: u32) {
    if let Some(four) = bytes.get_mut(place..place + 4) {
        four.copy_from_slice(&number.to_be_bytes());
    }
}

/// Adds to a count.
pub fn raise(bytes: &mut [u8], count: usize, by: u32) {
    let raised = word(bytes, count).wrapping_add(by);
    put_word(bytes, count, raised);
}

/// Puts one string structure of so many bytes at a place, and counts it.
pub fn put_string(bytes: &mut Vec<u8>, count: usize, place: usize, length: usize) {
    if length < 20 || bytes.len() < count + 4 {
        return;
    }
    bytes.splice(place..place, vec![b' '; length]);
    let fields = [4, length as u32, 3001, 0, length as u32 - 20];
    for (index, number) in fields.into_iter().enumerate() {
        put_word(bytes, place + 4 * index, number);
    }
    raise(bytes, count, 1);
}

/// Appends one string structure so that there are `size` bytes, and counts it.
/// What is too long for that stays as it is.
pub fn swell(bytes: &mut Vec<u8>, count: usize, size: usize) {
    let place = bytes.len();
    put_string(bytes, count, place, size.saturating_sub(place));
}
