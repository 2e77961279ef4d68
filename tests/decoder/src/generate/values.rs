//! The eight values, in range and out of it.

use super::random::Random;
use crate::attribute::{
    Values, ACCUMULATE_IN_MESSAGE, ACCUMULATE_NONE, ACCUMULATE_WITH_REPLY, COUNTER_MAX, DELIVER_NO,
    DELIVER_YES, DETAIL_HIGH, DETAIL_LOW, DETAIL_MEDIUM, FORWARD_ALL, FORWARD_IF_SUPPORTED,
};

/// Values in range: counters small or near their end, a limit near the sum or
/// none, options with and without unrecognised and ignored bits.
pub fn values(random: &mut Random) -> Values {
    let [recorded, unrecorded, discontinuities] = counters(random);
    let mut values = Values {
        // High records every level; the others do not, and so come less often.
        detail: random.pick(&[
            DETAIL_LOW,
            DETAIL_MEDIUM,
            DETAIL_HIGH,
            DETAIL_HIGH,
            DETAIL_HIGH,
        ]),
        recorded,
        unrecorded,
        discontinuities,
        max_activities: 0,
        accumulate: random.pick(&[
            ACCUMULATE_NONE,
            ACCUMULATE_IN_MESSAGE,
            ACCUMULATE_WITH_REPLY,
        ]),
        forward: option(random, FORWARD_ALL, FORWARD_IF_SUPPORTED),
        deliver: option(random, DELIVER_YES, DELIVER_NO),
    };
    values.max_activities = limit(random, values.sum());
    values
}

/// Mostly in range.
pub fn any_values(random: &mut Random) -> Values {
    let mut values = values(random);
    if random.chance(15) {
        out_of_range(random, &mut values);
    }
    values
}

fn counters(random: &mut Random) -> [u32; 3] {
    let small = [0; 3].map(|_| random.below(7) as u32);
    match random.below(10) {
        // One or all counters about to be full.
        0 | 1 => {
            let mut counters = small;
            counters[random.below(3)] = COUNTER_MAX - random.below(3) as u32;
            counters
        }
        2 => [0; 3].map(|_| COUNTER_MAX - random.below(3) as u32),
        3 => [0; 3].map(|_| random.word() >> 1),
        _ => small,
    }
}

/// A limit around the sum, where it fits into the range.
fn limit(random: &mut Random, sum: u64) -> u32 {
    let near = (sum + random.below(8) as u64).saturating_sub(2);
    match random.below(10) {
        0..=3 => 0,
        4 => random.pick(&[1, 2, 5, COUNTER_MAX]),
        5 => random.word() >> 1,
        _ => u32::try_from(near).unwrap_or(0).min(COUNTER_MAX),
    }
}

/// Exactly one of the two bits, and some others now and then.
fn option(random: &mut Random, first: u32, second: u32) -> u32 {
    let mut value = random.pick(&[first, second]);
    if random.chance(25) {
        value |= 1 << random.between(16, 31);
    }
    if random.chance(25) {
        value |= random.word() & 0xFFFF & !(first | second);
    }
    value
}

/// Puts one value out of its range.
pub fn out_of_range(random: &mut Random, values: &mut Values) {
    let high = random.pick(&[1 << 31, u32::MAX, (1 << 31) + 5]);
    match random.below(8) {
        0 => values.detail = random.pick(&[0, 1, 3, 4, 16, 33, 40, u32::MAX]),
        1 => values.recorded = high,
        2 => values.unrecorded = high,
        3 => values.discontinuities = high,
        4 => values.max_activities = high,
        5 => values.accumulate = random.pick(&[0, 3, 4, 0x10002, 0x10006, 0x10007, u32::MAX]),
        6 => values.forward = both_or_none(random, values.forward, 0x300),
        _ => values.deliver = both_or_none(random, values.deliver, 0x3000),
    }
}

fn both_or_none(random: &mut Random, value: u32, bits: u32) -> u32 {
    if random.chance(50) {
        value | bits
    } else {
        value & !bits
    }
}
