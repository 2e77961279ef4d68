//! Events: a discontinuity, and activities that write little or much.

use crate::agree;
use crate::ffi;
use crate::inputs::{self, Input, Inputs, LARGEST, SHEET};
use crate::measure::{contender, Contender, Row};
use crate::stage::{GROUP, NOTHING};
use crate::turns::Turns;
use decoder::{Settings, Sheet};
use std::hint::black_box;

pub fn rows(inputs: &Inputs) -> Vec<Row<'static>> {
    let mut rows = Vec::new();
    for input in &inputs.plain {
        rows.push(Row::new("discontinuity", input.name, discontinuity(input)));
    }
    for input in &inputs.plain {
        rows.push(activity("activity, unrecorded", input, false));
    }
    // The largest messages have no room for a group.
    let flat = Input::plain("flat, 65,236 bytes", inputs::flat(LARGEST - GROUP));
    let nested = inputs::nested(LARGEST - GROUP);
    let nested = Input::plain("groups to depth 8, 65,236 bytes", nested);
    let [composed, typical, ..] = &inputs.plain;
    let [without, with] = &inputs.embedded;
    for input in [composed, typical, &flat, &nested, without, with] {
        rows.push(activity("activity, appended and reported", input, true));
    }
    rows
}

fn activity(entry: &'static str, input: &Input, recorded: bool) -> Row<'static> {
    agree::activities(input, recorded);
    let contenders = Turns::on(input).activity(recorded);
    Row::new(entry, input.name, contenders)
}

fn discontinuity(input: &Input) -> Vec<Contender<'static>> {
    let (message, length, layout, options) = input.lent();
    let (mut ours, mut theirs) = (message.to_vec(), message.to_vec());
    let sheet = Sheet::new(SHEET);
    let settings = Settings {
        activity_recording: false,
        trace_route_messaging: false,
        layout,
    };
    let mut done = NOTHING;
    let answer = ffi::discontinuity(&mut ours, length, &SHEET, options, &mut done);
    assert!(!answer.is_refused());
    vec![
        contender(move || {
            let (buffer, mut done) = (black_box(&mut ours), NOTHING);
            let answer = ffi::discontinuity(buffer, length, &SHEET, options, &mut done);
            (answer, done)
        }),
        contender(move || {
            decoder::discontinuity(black_box(&mut theirs), length, &sheet, &settings)
        }),
    ]
}
