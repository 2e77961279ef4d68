//! Lists of events on one trace: answers and all bytes after each event.

use super::show;
use super::stage::Stage;
use crate::run::{run, Wanted};
use crate::spare::spare;
use decoder::generate::{any_layout, scenario, sound_scenario, Random, Scenario};
use decoder::{Applied, Event, EventRefusal, Sheet};
use differential::compare::events::compare_event;
use differential::compare::numbers::Spare;
use differential::failure::OnFailure;
use differential::spread::traces::Before;
use differential::spread::Spread;
use std::hint::black_box;

type Outcome = Result<Applied, EventRefusal>;

/// One event on both sides.
fn compare(
    ours: &mut Stage,
    theirs: &mut Stage,
    sheet: &Sheet,
    event: &Event,
    spare: Spare,
) -> Outcome {
    let length = ours.length;
    let (mut our, mut their) = (ours.buffers(), theirs.buffers());
    let result = compare_event(&mut our, &mut their, length, sheet, event, spare);
    if let Ok(applied) = &result {
        (ours.length, theirs.length) = (applied.message_length, applied.message_length);
    }
    result
}

/// An event's answer, and what the embedded form adds to it.
pub fn note(spread: &mut Spread, event: &Event, before: &Before, result: &Outcome) {
    let layout = event.settings().layout;
    let counts = spread.of(layout);
    counts.event(event, result);
    before.note(counts, layout, result);
}

fn play(case: &Scenario, random: &mut Random, spread: &mut Spread) {
    let _told = OnFailure(|| show::scenario(case));
    let untouched = case.clone();
    let mut ours = Stage::new(case);
    let mut theirs = ours.clone();
    for (index, step) in case.events.iter().enumerate() {
        let (event, spare) = (step.event(), spare(random));
        let _told = OnFailure(|| format!("at event {index}, {spare:?}"));
        let before = Before::new(&ours.buffer, ours.length, &event);
        let result = compare(&mut ours, &mut theirs, &case.sheet, &event, spare);
        note(spread, &event, &before, &result);
        let other = event.settings().layout != case.layout;
        let counts = spread.of(event.settings().layout);
        counts.note("other form", u32::from(other));
    }
    // Sheet and lent groups are as they were.
    assert!(black_box(case) == &untouched, "something else was written");
}

const WANTED: Wanted = Wanted {
    plain: &[
        ("activity", &[0], 16_000),
        ("activity", &[9, 10, 12], 3_800),
        ("activity", &[2, 3, 8, 11, 13], 640),
        ("activity", &[1, 4, 5, 6, 7, 17], 130),
        ("discontinuity", &[0, 10], 5_300),
        ("discontinuity", &[2, 3, 8, 11], 210),
        ("discontinuity", &[1, 4, 5, 6, 7, 17], 21),
        ("appended", &[0, 1], 5_100),
        ("reported", &[0, 1], 6_200),
        ("counter", &[1, 2, 3], 7_800),
        ("reply owed", &[0, 1], 6_600),
        ("other form", &[0], 62_000),
        ("other form", &[1], 620),
    ],
    embedded: &[
        ("activity", &[0, 10], 14_000),
        ("activity", &[9, 11, 12, 13], 2_100),
        ("activity", &[3, 8, 18], 420),
        ("activity", &[1, 2, 4, 5, 6, 7, 17], 86),
        ("discontinuity", &[0, 10], 5_300),
        ("discontinuity", &[8, 11, 18], 240),
        ("discontinuity", &[1, 2, 3, 4, 5, 6, 7, 17], 8),
        ("appended", &[0, 1], 4_900),
        ("reported", &[0, 1], 6_100),
        ("counter", &[1, 2, 3], 7_700),
        ("reply owed", &[0, 1], 6_400),
        ("other form", &[0], 61_000),
        ("other form", &[1], 680),
        ("append, user data", &[4, 5, 6], 670),
        ("append, user data", &[0, 1, 2, 3], 160),
        ("append, old and new place overlap", &[0, 1], 1_800),
        ("append fills the buffer", &[0], 4_400),
        ("append fills the buffer", &[1], 440),
        ("append to 65,536", &[0], 4_700),
        ("append to 65,536", &[1], 140),
        ("12 by a byte", &[0], 3_700),
        ("12 by a byte", &[1, 2], 200),
        ("12 by user data alone", &[0, 1], 2_100),
    ],
};

#[test]
fn generated_lists() {
    run("lists of events", 60_000, WANTED, |random, spread| {
        let layout = any_layout(random);
        let case = if random.chance(50) {
            scenario(random, layout)
        } else {
            sound_scenario(random, layout)
        };
        play(&case, random, spread);
    });
}
