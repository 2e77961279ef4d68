//! Lent buffers: a message with bytes behind it, and wrong lengths.

use super::layout::bytes_before;
use super::random::Random;
use crate::layout::Layout;

/// A lent buffer, the length of the message at its start, and the layout that
/// this is to be read in.
#[derive(Clone, Debug, PartialEq, Eq)]
pub struct Lent {
    pub buffer: Vec<u8>,
    pub length: usize,
    pub layout: Layout,
}

/// Lends the message in a buffer that is exact or has other bytes behind it.
pub fn lend(random: &mut Random, layout: Layout, message: Vec<u8>) -> Lent {
    let length = message.len();
    let mut buffer = message;
    if random.chance(50) {
        let behind = random.pick(&[1, 4, 16, 36, 300]);
        buffer.extend(random.bytes(behind));
    }
    Lent {
        buffer,
        length,
        layout,
    }
}

/// Claims a length that gives 1: too small, above the buffer, above 65,536.
pub fn wrong_length(random: &mut Random, lent: &mut Lent) {
    let size = lent.buffer.len();
    let least = bytes_before(lent.layout) + 36;
    lent.length = match random.below(8) {
        0 => 0,
        1 => (least - 1).min(size),
        2 => random.below(least),
        3 => size + 1,
        4 => usize::MAX,
        5 => usize::MAX - random.below(70_000),
        6 => size + random.between(1, 100_000),
        _ => {
            lent.buffer.resize(size.max(65_537 + random.below(8)), 0);
            65_537
        }
    };
}

/// Claims another length inside the buffer, which keeps all its bytes. What is
/// cut off, or taken in, still stands there.
pub fn other_length(random: &mut Random, lent: &mut Lent) {
    let size = lent.buffer.len().min(65_536);
    lent.length = match random.below(4) {
        0 => random.between(lent.length, size),
        1 => lent.length.saturating_sub(random.between(1, 8)),
        2 => lent.length.saturating_sub(random.between(1, 200)),
        _ => random.below(lent.length),
    };
}
