//! Compose, and reading back what it wrote.

use crate::run::{run, Wanted};
use crate::spare::spare;
use decoder::generate::{any_layout, compose_case, ComposeCase, Random};
use decoder::Values;
use differential::compare::compose::{compare_compose, Draft};
use differential::compare::numbers::Spare;
use differential::failure::{hex, OnFailure};
use differential::spread::traces::note_composed;
use differential::spread::Spread;
use std::hint::black_box;

/// What a case gives to compose.
pub fn draft(case: &ComposeCase, spare: Spare) -> Draft<'_> {
    Draft {
        layout: case.layout,
        sheet: case.sheet,
        values: case.values,
        embedding: case.embedding,
        user_data: &case.user_data,
        spare,
    }
}

/// A case, now and then with eight values without any sense, or with a buffer
/// whose size has nothing to do with the message's.
pub fn any_case(random: &mut Random) -> ComposeCase {
    let layout = any_layout(random);
    let mut case = compose_case(random, layout);
    if random.chance(10) {
        case.values = Values::from_array([0; 8].map(|_| random.word()));
    }
    if random.chance(10) {
        let small = random.below(301);
        let size = random.pick(&[small, small, small, 65_536, 65_537, 70_000]);
        case.buffer = random.bytes(size);
    }
    case
}

fn show(case: &ComposeCase) -> String {
    let (user_data, buffer) = (
        hex("user data", &case.user_data),
        hex("buffer", &case.buffer),
    );
    format!(
        "{:?} {:?}\n{:?}\n{:?}\n{user_data}\n{buffer}",
        case.layout, case.sheet, case.values, case.embedding
    )
}

fn case(random: &mut Random, spread: &mut Spread) {
    let (case, spare) = (any_case(random), spare(random));
    let _told = OnFailure(|| format!("{spare:?} {}", show(&case)));
    let before = case.clone();
    let answer = compare_compose(&draft(&case, spare), &mut case.buffer.clone());
    assert!(black_box(&case) == &before, "something else was written");
    let counts = spread.of(case.layout);
    counts.answer("compose", answer);
    note_composed(counts, &case, answer);
}

const WANTED: Wanted = Wanted {
    plain: &[("compose", &[0], 20_000), ("compose", &[8, 12, 17], 2_200)],
    embedded: &[
        ("compose", &[0, 12], 9_400),
        ("compose", &[8, 17], 2_300),
        ("composed, user data", &[4, 5], 5_200),
        ("composed, user data", &[0, 1, 2, 3, 6], 760),
        ("composed to 65,536", &[0], 17_000),
        ("composed to 65,536", &[1], 510),
        ("composed fills the buffer", &[0, 1], 8_700),
        ("compose: 12 by a byte", &[0, 1], 2_500),
        ("compose: 12 by a byte", &[2], 500),
    ],
};

#[test]
fn generated_values() {
    run("composed", 120_000, WANTED, case);
}
