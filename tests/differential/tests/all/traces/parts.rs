//! The n-th Activity group, and named strings.

use super::read::{any_case, other_sheet};
use super::show;
use crate::other::other_words;
use crate::run::{run, Wanted};
use crate::spare::spare;
use decoder::generate::{any_layout, Random, NAMES};
use decoder::Sheet;
use differential::compare::bytes::same;
use differential::compare::given::Given;
use differential::compare::parts::{compare_group, compare_name};
use differential::failure::OnFailure;
use differential::spread::traces::note_group;
use differential::spread::Spread;

/// Names that are often there, and numbers that other structures have.
fn some_identifier(random: &mut Random, sheet: &Sheet) -> u32 {
    match random.below(10) {
        0..=6 => random.pick(&NAMES),
        7 => random.pick(&sheet.identifiers),
        8 => random.pick(&[0, u32::MAX, 8003, 1 << 31]),
        _ => random.word(),
    }
}

/// The n-th group; whether there is one.
pub fn group(given: Given, sheet: &Sheet, n: usize, spread: &mut Spread) -> bool {
    let found = compare_group(given, sheet, n);
    let counts = spread.of(given.layout);
    counts.note("group", u32::from(found.is_none()));
    if let Some(part) = found {
        note_group(counts, &given, part);
    }
    found.is_some()
}

/// A name in it.
pub fn name(given: Given, sheet: &Sheet, name: (usize, u32), spread: &mut Spread) {
    let found = compare_name(given, sheet, name);
    spread.of(given.layout).name(found);
}

fn case(random: &mut Random, spread: &mut Spread) {
    let built = any_layout(random);
    let (message, sheet) = any_case(random, built);
    let asked = Given::of(&message, spare(random));
    let others = (other_words(random, asked), other_sheet(random));
    let _told = OnFailure(|| show::trace(&asked, &sheet, &others.0, &others.1));
    let before = (message.buffer.clone(), sheet);
    for n in [0, 1, 2, 3, 4, usize::MAX, random.number() as usize] {
        let found = group(asked, &sheet, n, spread);
        // Where there is no group, one name is as good as another.
        for _ in 0..if found { 5 } else { 1 } {
            let identifier = some_identifier(random, &sheet);
            name(asked, &sheet, (n, identifier), spread);
        }
    }
    let identifier = random.pick(&NAMES);
    for (words, sheet) in [(asked, &others.1), (others.0, &sheet)] {
        group(words, sheet, 0, spread);
        name(words, sheet, (0, identifier), spread);
    }
    same("the message", &message.buffer, &before.0);
    assert_eq!(std::hint::black_box(&sheet), &before.1);
}

const WANTED: Wanted = Wanted {
    plain: &[
        ("group", &[1], 260_000),
        ("group", &[0], 24_000),
        ("name", &[1], 360_000),
        ("name", &[0], 22_000),
        ("empty name", &[1], 370_000),
        ("empty name", &[0], 6_600),
        ("cut off a name", &[0, 1, 2, 3], 3_400),
    ],
    embedded: &[
        ("group", &[1], 260_000),
        ("group", &[0], 25_000),
        ("name", &[1], 360_000),
        ("name", &[0], 22_000),
        ("empty name", &[1], 370_000),
        ("empty name", &[0], 6_800),
        ("cut off a name", &[0, 1, 2, 3], 3_500),
        ("group before user data", &[0], 20_000),
        ("group before user data", &[1], 4_900),
    ],
};

#[test]
fn generated_traces() {
    run("parts", 100_000, WANTED, case);
}
