//! Check, tally, list and step on generated messages.

use crate::other::other_words;
use crate::run::{run, Wanted};
use crate::spare::spare;
use decoder::generate::{any_layout, any_message, any_place, Random};
use differential::compare::bytes::same;
use differential::compare::given::Given;
use differential::compare::structures::{self, compare_step};
use differential::compare::text::Text;
use differential::failure::{given, OnFailure};
use differential::ffi::EMBEDDED;
use differential::spread::messages::{note_checked, note_step};
use differential::spread::Spread;

/// Check, tally and list of one message.
pub fn compare(given: Given, text: &mut Text, spread: &mut Spread) {
    let counts = spread.of(given.layout);
    let answers = structures::compare(given, text);
    note_checked(counts, &given, answers[0].1);
    for (entry, answer) in answers {
        counts.answer(entry, answer);
    }
    let further = given.options() & !EMBEDDED != 0;
    counts.note("further bits", u32::from(further));
}

/// The whole walk over a sound message, one structure at a time.
fn compare_walk(given: Given, spread: &mut Spread) {
    let rows = decoder::rows(given.buffer, given.length, given.layout);
    for row in rows.unwrap_or_default() {
        let answer = compare_step(given, row.place, row.depth);
        spread.of(given.layout).answer("step in a walk", answer);
    }
}

fn case(random: &mut Random, text: &mut Text, spread: &mut Spread) {
    let built = any_layout(random);
    let message = any_message(random, built);
    let asked = Given::of(&message, spare(random));
    let other = other_words(random, asked);
    let _told = OnFailure(|| given(&asked, &other));
    let before = message.buffer.clone();
    for (entry, words) in [("other form", asked), ("other form by words", other)] {
        compare(words, text, spread);
        let counts = spread.of(words.layout);
        counts.note(entry, u32::from(words.layout != built));
    }
    compare_walk(asked, spread);
    for _ in 0..4 {
        let (place, depth) = any_place(random, &message);
        let words = if random.chance(90) { asked } else { other };
        let answer = compare_step(words, place, depth);
        let counts = spread.of(words.layout);
        counts.answer("step", answer);
        note_step(counts, &words, place, answer);
    }
    same("the message", &message.buffer, &before);
}

const WANTED: Wanted = Wanted {
    plain: &[
        ("check", &[0, 1, 2, 3], 18_000),
        ("check", &[4, 5], 3_000),
        ("tally", &[0, 1, 2, 3], 18_000),
        ("tally", &[4, 5], 3_000),
        ("list", &[0, 1, 2, 3], 18_000),
        ("list", &[4, 5], 3_000),
        ("step in a walk", &[0], 2_000_000),
        ("step", &[0, 3], 59_000),
        ("step", &[1, 4], 9_700),
        ("further bits", &[0, 1], 49_000),
        ("other form", &[0], 51_000),
        ("other form", &[1], 1_200),
        ("other form by words", &[0, 1], 15_000),
    ],
    embedded: &[
        ("check", &[0, 1, 3, 18], 8_900),
        ("check", &[2, 4, 5], 1_500),
        ("tally", &[0, 1, 3, 18], 8_900),
        ("tally", &[2, 4, 5], 1_500),
        ("list", &[0, 1, 3, 18], 8_900),
        ("list", &[2, 4, 5], 1_500),
        ("step in a walk", &[0], 2_100_000),
        ("step", &[0, 3, 18], 34_000),
        ("step", &[1, 4], 7_800),
        ("further bits", &[0, 1], 48_000),
        ("other form", &[0], 50_000),
        ("other form", &[1], 1_200),
        ("other form by words", &[0, 1], 16_000),
        ("18 by", &[3, 5], 10_000),
        ("18 by", &[0, 1, 2, 4], 580),
        ("18 by identifier byte", &[0, 1, 2, 3], 170),
        ("18 by Version", &[3], 820),
        ("18 by Version", &[0, 2], 110),
        ("18 by StrucLength above", &[0], 9_500),
        ("18 by StrucLength above", &[2], 700),
        ("18 by StrucLength above", &[1, 3], 140),
        ("18 by remainder", &[1, 2, 3], 130),
        ("StrucLength", &[1, 2], 5_400),
        ("StrucLength", &[0, 3], 250),
        ("length 67, 68", &[67, 68], 1_200),
        ("sound, user data", &[4, 5], 9_200),
        ("sound, user data", &[0, 1, 2, 3, 6], 1_200),
        ("user data to 65,536", &[0], 29_000),
        ("user data to 65,536", &[1], 560),
        ("user data like a structure", &[0, 1], 9_500),
        ("3 by the part's end", &[0, 1], 1_600),
        ("5 before user data", &[1], 3_100),
        ("step at", &[2], 75_000),
        ("step at", &[0, 1, 3, 4, 5, 6], 8_200),
        ("step found", &[2], 47_000),
        ("step found", &[0, 1], 1_200),
        ("step lured", &[0], 140_000),
        ("step lured", &[1], 4_600),
    ],
};

#[test]
fn generated_messages() {
    let mut text = Text::new();
    run("messages", 160_000, WANTED, |random, spread| {
        case(random, &mut text, spread)
    });
}
