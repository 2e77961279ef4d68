//! Every function ends with an answer: any bytes, lengths, places, numbers.

use crate::helpers::{embedded, EMBEDDED, PLAIN};
use decoder::generate::*;
use decoder::*;

const EDGES: [usize; 11] = [
    0,
    35,
    36,
    67,
    68,
    65_535,
    65_536,
    65_537,
    1 << 31,
    1 << 32,
    1 << 63,
];

/// Lengths and places that tempt a sum to overflow.
fn any_number(random: &mut Random, size: usize) -> usize {
    match random.below(5) {
        0 => random.below(size + 2),
        1 => usize::MAX - random.below(64),
        2 => random.pick(&EDGES),
        3 => random.number() as usize,
        _ => size,
    }
}

fn any_buffer(random: &mut Random) -> Vec<u8> {
    let layout = any_layout(random);
    match random.below(4) {
        0 => {
            let size = random.below(300);
            random.bytes(size)
        }
        1 => vec![0xFF; random.below(300)],
        2 => any_message(random, layout).buffer,
        _ => any_trace(random, layout).lent.buffer,
    }
}

fn any_activity<'a>(random: &mut Random, group: &'a [u8]) -> Activity<'a> {
    Activity {
        level: Level::ALL[random.below(3)],
        group,
        reports_asked: random.chance(50),
        settings: any_settings(random),
    }
}

fn any_settings(random: &mut Random) -> Settings {
    Settings {
        activity_recording: random.chance(50),
        trace_route_messaging: random.chance(50),
        layout: any_layout(random),
    }
}

/// Any numbers, which seldom are a sound sheet, or a sheet that mostly is one.
fn any_numbers(random: &mut Random) -> Sheet {
    if random.chance(60) {
        return any_sheet(random);
    }
    Sheet::new([0; 8].map(|_| random.word() >> random.below(3)))
}

/// Entries that only look at the message.
fn look(random: &mut Random, buffer: &[u8], length: usize, layout: Layout, sheet: &Sheet) {
    let place = any_number(random, buffer.len());
    let (depth, n, id) = (random.word(), any_number(random, 3), random.word());
    let _ = (
        check(buffer, length, layout),
        rows(buffer, length, layout),
        tally(buffer, length, layout),
    );
    let _ = (
        listing(buffer, length, layout),
        step(buffer, length, layout, place, depth),
    );
    let _ = locate(buffer, length, layout, sheet);
    let _ = (
        forwarding(buffer, length, layout, sheet, n == 0),
        arrival(buffer, length, layout, sheet),
    );
    let _ = activity_group(buffer, length, layout, sheet, n);
    let _ = named_string(buffer, length, layout, sheet, n, id);
    let part = Part { place, length };
    let _ = (part.of(buffer).len(), Header::of(buffer));
    let _ = Embedding::of(buffer);
}

/// Entries that may write: a refusal changes no byte.
fn write(random: &mut Random, buffer: &mut [u8], length: usize, layout: Layout, sheet: &Sheet) {
    let group = any_buffer(random);
    let event = any_activity(random, &group);
    let mut report = vec![7; random.below(500)];
    let before = (buffer.to_vec(), report.clone());
    if activity(buffer, length, sheet, &event, &mut report).is_err() {
        assert!(before.0 == buffer && before.1 == report);
    }
    let before = buffer.to_vec();
    if discontinuity(buffer, length, sheet, &any_settings(random)).is_err() {
        assert!(before == buffer);
    }
    let values = Values::from_array([0; 8].map(|_| random.word()));
    let _ = (values.in_range(), values.sum(), values.limit_reached());
    let (values, embedding) = (any_values(random), any_embedding(random));
    let before = buffer.to_vec();
    if compose(layout, sheet, &values, &embedding, &group, buffer).is_err() {
        assert!(before == buffer);
    }
}

#[test]
fn any_input_has_an_answer() {
    let mut random = Random::new(9);
    for _ in 0..20_000 {
        let mut buffer = any_buffer(&mut random);
        let length = any_number(&mut random, buffer.len());
        let (layout, sheet) = (any_layout(&mut random), any_numbers(&mut random));
        look(&mut random, &buffer, length, layout, &sheet);
        write(&mut random, &mut buffer, length, layout, &sheet);
    }
}

#[test]
fn steps_at_every_place_of_a_message() {
    let event = sample::event_004();
    // A second event as user data, into which no step leads.
    let wrapped = embedded(&event, &event);
    for (bytes, layout, end) in [(event, PLAIN, 300), (wrapped, EMBEDDED, 332)] {
        for place in 0..=bytes.len() + 1 {
            for depth in [0, 1, 8, 9, u32::MAX] {
                if let Ok((row, behind)) = step(&bytes, bytes.len(), layout, place, depth) {
                    assert_eq!((row.place, row.depth), (place, depth));
                    assert!(behind <= end && behind >= place + 16);
                }
            }
        }
    }
}
