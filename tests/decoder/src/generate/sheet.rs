//! Sheets, sound and unsound.

use super::random::Random;
use crate::sample::{IBM, MADE_UP};
use crate::sheet::Sheet;

/// Numbers that test the range's ends and meet other parameters.
const SPECIAL: [u32; 8] = [1, 2, 8003, 8005, 3001, 1201, 0x7FFF_FFFE, 0x7FFF_FFFF];

pub fn sound_sheet(random: &mut Random) -> Sheet {
    match random.below(5) {
        0 | 1 => Sheet::new(MADE_UP),
        2 => Sheet::new(IBM),
        _ => mixed_sheet(random),
    }
}

/// Eight different numbers, some of them special ones.
fn mixed_sheet(random: &mut Random) -> Sheet {
    let mut numbers = [0; 8];
    for index in 0..numbers.len() {
        loop {
            let number = if random.chance(40) {
                random.pick(&SPECIAL)
            } else {
                (random.word() >> 1).max(1)
            };
            if !numbers[..index].contains(&number) {
                numbers[index] = number;
                break;
            }
        }
    }
    Sheet::new(numbers)
}

/// A sheet with a number out of range or with two equal.
pub fn unsound_sheet(random: &mut Random) -> Sheet {
    let mut sheet = sound_sheet(random);
    let first = random.below(8);
    if random.chance(50) {
        let second = (first + random.between(1, 7)) % 8;
        sheet.identifiers[first] = sheet.identifiers[second];
    } else {
        let high = random.word() | (1 << 31);
        sheet.identifiers[first] = random.pick(&[0, 1 << 31, u32::MAX, high]);
    }
    sheet
}

/// Mostly sound.
pub fn any_sheet(random: &mut Random) -> Sheet {
    if random.chance(94) {
        sound_sheet(random)
    } else {
        unsound_sheet(random)
    }
}
