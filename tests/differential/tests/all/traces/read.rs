//! Read, forwarding and arrival under sound and unsound sheets.

use super::show;
use crate::other::other_words;
use crate::run::{run, Wanted};
use crate::spare::spare;
use decoder::generate::{
    any_layout, any_message, any_sheet, any_trace, unsound_sheet, Lent, Random, TraceCase,
};
use decoder::{Layout, Sheet};
use differential::compare::bytes::same;
use differential::compare::given::Given;
use differential::compare::traces::{compare_decisions, compare_read};
use differential::failure::OnFailure;
use differential::spread::traces::note_read;
use differential::spread::Spread;

/// Mostly traces, sound and faulty ones, but also messages of any type.
pub fn any_case(random: &mut Random, built: Layout) -> (Lent, Sheet) {
    if random.chance(90) {
        let TraceCase { lent, sheet, .. } = any_trace(random, built);
        (lent, sheet)
    } else {
        (any_message(random, built), any_sheet(random))
    }
}

/// A sheet that seldom fits the trace, and often no one.
pub fn other_sheet(random: &mut Random) -> Sheet {
    if random.chance(50) {
        any_sheet(random)
    } else {
        unsound_sheet(random)
    }
}

/// Read and the decisions on one message.
pub fn compare(given: Given, sheet: &Sheet, spread: &mut Spread) {
    let counts = spread.of(given.layout);
    let answer = compare_read(given, sheet);
    counts.answer("read", answer);
    note_read(counts, &given, answer);
    for (entry, answer) in compare_decisions(given, sheet) {
        counts.answer(entry, answer);
    }
}

fn case(random: &mut Random, spread: &mut Spread) {
    let built = any_layout(random);
    let (message, sheet) = any_case(random, built);
    let asked = Given::of(&message, spare(random));
    let others = (other_words(random, asked), other_sheet(random));
    let _told = OnFailure(|| show::trace(&asked, &sheet, &others.0, &others.1));
    let before = (message.buffer.clone(), sheet);
    compare(asked, &others.1, spread);
    for (entry, words) in [("other form", asked), ("other form by words", others.0)] {
        compare(words, &sheet, spread);
        let counts = spread.of(words.layout);
        counts.note(entry, u32::from(words.layout != built));
    }
    same("the message", &message.buffer, &before.0);
    assert_eq!(std::hint::black_box(&sheet), &before.1);
}

const WANTED: Wanted = Wanted {
    plain: &[
        ("read", &[0, 1, 2, 3, 8, 17], 9_700),
        ("read", &[4, 5, 6, 7], 1_400),
        ("forward", &[0, 1, 2, 3, 8, 17], 9_700),
        ("forward", &[4, 5, 6, 7, 15], 1_400),
        ("forward, not supporting", &[0, 1, 2, 3, 8, 17], 9_600),
        ("forward, not supporting", &[4, 5, 6, 7, 14, 15, 16], 1_400),
        ("arrive", &[0, 1, 2, 3, 8, 17], 9_700),
        ("arrive", &[4, 5, 6, 7, 14], 1_400),
        ("other form", &[0], 32_000),
        ("other form", &[1], 420),
        ("other form by words", &[0, 1], 9_700),
    ],
    embedded: &[
        ("read", &[0, 17, 18], 18_000),
        ("read", &[1, 3, 6, 8], 3_600),
        ("read", &[2, 4, 5, 7], 700),
        ("forward", &[0, 17, 18], 15_000),
        ("forward", &[1, 3, 6, 8, 15], 3_600),
        ("forward", &[2, 4, 5, 7], 700),
        ("forward, not supporting", &[17, 18], 18_000),
        ("forward, not supporting", &[0, 1, 3, 6, 8, 14], 3_600),
        ("forward, not supporting", &[2, 4, 5, 7, 15, 16], 700),
        ("arrive", &[0, 17, 18], 15_000),
        ("arrive", &[1, 3, 6, 8, 14], 3_600),
        ("arrive", &[2, 4, 5, 7], 700),
        ("other form", &[0], 31_000),
        ("other form", &[1], 450),
        ("other form by words", &[0, 1], 9_900),
        ("read, user data", &[4, 5], 6_000),
        ("read, user data", &[0, 1, 2, 3, 6], 830),
        ("read, fields", &[1], 18_000),
        ("read, fields", &[0], 1_600),
    ],
};

#[test]
fn generated_traces() {
    run("traces", 100_000, WANTED, case);
}
