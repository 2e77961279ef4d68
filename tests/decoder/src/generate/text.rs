//! Data of strings and the padding behind them. Blanks and zero bytes at the
//! end of a name are removed, so these two stand wherever one way of trimming
//! differs from another.

use super::random::Random;

const BLANK: u8 = 0x20;
const ZERO: u8 = 0x00;

/// Bytes that a trim may mistake for blanks or zero bytes: their neighbours,
/// the blanks of other character sets, and bytes with the sign bit.
pub const NEAR_MISSES: [u8; 7] = [0x01, 0x1F, 0x21, 0x40, 0x80, 0xA0, 0xFF];

fn is_fill(byte: u8) -> bool {
    byte == BLANK || byte == ZERO
}

/// Data with blanks and zero bytes at the end, inside, all over, or not at all.
pub(super) fn text(random: &mut Random, length: usize) -> Vec<u8> {
    let mut data = random.bytes(length);
    let tail = match random.below(8) {
        0 => length,
        1 => 0,
        _ => random.below(length + 1),
    };
    let (front, end) = data.split_at_mut(length - tail);
    scatter(random, front);
    close(random, front);
    run(random, end);
    // One byte behind the run makes all of it part of the name.
    if random.chance(12) {
        if let Some(last) = data.last_mut() {
            *last = random.pick(&NEAR_MISSES);
        }
    }
    data
}

/// Padding that a trim would remove, and padding that would stay in a name, so
/// that a decoder which takes it for data is seen to give wrong names.
pub(super) fn padding(random: &mut Random, length: usize) -> Vec<u8> {
    let mut padding = random.bytes(length);
    match random.below(6) {
        0 | 1 => padding.fill(ZERO),
        2 | 3 => run(random, &mut padding),
        4 => padding.fill(random.pick(&NEAR_MISSES)),
        _ => {}
    }
    padding
}

/// Fills the bytes with blanks, zero bytes, or both: in either order, by
/// turns, at random.
fn run(random: &mut Random, bytes: &mut [u8]) {
    let (mut first, mut second) = (BLANK, ZERO);
    if random.chance(50) {
        (first, second) = (second, first);
    }
    match random.below(5) {
        0 | 1 => bytes.fill(first),
        2 => {
            // Where there are two bytes, each kind has one at least.
            let split = random.between(1, bytes.len().saturating_sub(1));
            let (one, other) = bytes.split_at_mut(split.min(bytes.len()));
            one.fill(first);
            other.fill(second);
        }
        3 => {
            for pair in bytes.chunks_mut(2) {
                pair.fill(second);
                pair[0] = first;
            }
        }
        _ => {
            let bits = random.bytes(bytes.len());
            for (byte, bits) in bytes.iter_mut().zip(bits) {
                *byte = if bits & 1 == 0 { first } else { second };
            }
        }
    }
}

/// Puts short runs between the other bytes, and now and then at the start.
fn scatter(random: &mut Random, bytes: &mut [u8]) {
    for _ in 0..random.pick(&[0, 0, 1, 2]) {
        let start = if random.chance(25) {
            0
        } else {
            random.below(bytes.len())
        };
        let most = random.between(1, 4);
        let end = bytes.len().min(start + most);
        run(random, &mut bytes[start..end]);
    }
}

/// Has the bytes end in one that is neither blank nor zero, so that the run
/// behind them is no longer than it was drawn.
fn close(random: &mut Random, bytes: &mut [u8]) {
    let near = random.chance(30);
    if let Some(last) = bytes.last_mut() {
        if near || is_fill(*last) {
            *last = random.pick(&NEAR_MISSES);
        }
    }
}
