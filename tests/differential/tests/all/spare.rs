//! What a caller is free to give besides: option bits and levels.

use decoder::generate::Random;
use differential::compare::numbers::Spare;

/// Numbers that are no level and so count as the low one.
const NO_LEVELS: [u32; 12] = [
    0,
    1,
    3,
    4,
    7,
    9,
    16,
    31,
    33,
    1 << 31,
    (1 << 31) + 8,
    u32::MAX,
];

/// Often no other bits than those that are named, else one, some, or all. The
/// form's own bit may be among them: it is set as the form is.
pub fn spare(random: &mut Random) -> Spare {
    let one = 1 << random.below(32);
    Spare {
        low: low(random),
        bits: match random.below(6) {
            0 => random.word(),
            1 => random.pick(&[7, 8, 15, 16, 31, !16, u32::MAX]),
            2 => one,
            _ => 0,
        },
    }
}

/// The low level as its number, or as one that counts as it: any but 8 and 32.
fn low(random: &mut Random) -> u32 {
    match random.below(4) {
        0 => random.pick(&NO_LEVELS),
        1 => match random.word() {
            8 | 32 => 2,
            other => other,
        },
        _ => 2,
    }
}
