//! The rules' hops on both sides of the line, through the library and in both
//! forms.

use super::sample::{composed, FORMS, USER_DATA, VALUES};
use super::stage::Stage;
use decoder::generate::{assemble, Piece};
use decoder::sample::{COMPOSED_LISTING, MADE_UP};
use decoder::{Activity, Event, Layout, Level, Settings, Sheet, Values};
use differential::compare::fill;
use differential::compare::given::Given;
use differential::compare::numbers::Spare;
use differential::compare::text::Text;
use differential::compare::traces::read;
use differential::ffi::{self, Answer};

const FORWARD: Answer = Answer(32);

#[test]
fn the_listing_of_a_composed_message() {
    let message = composed(Layout::PLAIN, VALUES, &[]);
    let given = Given::whole(&message, Layout::PLAIN);
    let answer = Text::new().list(given, COMPOSED_LISTING.as_bytes());
    assert_eq!(answer, Answer::given(COMPOSED_LISTING.len() as u64));
}

#[test]
fn a_header_of_type_7_is_no_trace() {
    let message = assemble([7, 36, 3, 99, 1, 1, 0, 0], &[]);
    let given = Given::whole(&message, Layout::PLAIN);
    let found = read(given, &Sheet::new(MADE_UP));
    assert_eq!(found, (Answer::refused(6, 0), fill::CONTENTS));
}

/// The answer's number for an event on a composed trace.
fn event(limit: u32, counters: [u32; 3], event: &Event) -> u32 {
    let mut values = Values::from_array(VALUES);
    [values.recorded, values.unrecorded, values.discontinuities] = counters;
    values.max_activities = limit;
    let layout = event.settings().layout;
    let buffer = composed(layout, values.to_array(), USER_DATA);
    let mut stage = Stage {
        length: buffer.len(),
        buffer,
        report: vec![0; 100],
    };
    let (answer, _) = stage.library(&Sheet::new(MADE_UP), event, Spare::NONE);
    answer.number()
}

fn settings(layout: Layout) -> Settings {
    Settings {
        activity_recording: true,
        trace_route_messaging: true,
        layout,
    }
}

/// A low activity, recorded for its report or unrecorded.
fn activity(layout: Layout, group: &[u8], recorded: bool) -> Event<'_> {
    Event::Activity(Activity {
        level: Level::Low,
        group,
        reports_asked: recorded,
        settings: settings(layout),
    })
}

#[test]
fn limits() {
    let group = Piece::group(8005, &[]).bytes;
    for layout in FORMS {
        let discontinuity = Event::Discontinuity(settings(layout));
        for event_of in [discontinuity, activity(layout, &group, true)] {
            assert_eq!(event(5, [2, 1, 1], &event_of), 0);
            assert_eq!(event(5, [2, 2, 1], &event_of), 10);
            assert_eq!(event(0, [2, 2, 1], &event_of), 0);
        }
    }
}

#[test]
fn full_counters() {
    let group = Piece::group(8005, &[]).bytes;
    let full = [i32::MAX as u32, 0, 0];
    for layout in FORMS {
        assert_eq!(event(0, full, &activity(layout, &group, true)), 11);
        assert_eq!(event(0, full, &activity(layout, &group, false)), 0);
    }
}

/// The same in both forms.
fn forward(forward: u32, deliver: u32, supporting: bool) -> Answer {
    let [a, b, c, d, e, f, ..] = VALUES;
    let [plain, embedded] = FORMS.map(|layout| {
        let message = composed(layout, [a, b, c, d, e, f, forward, deliver], USER_DATA);
        let options = Spare::NONE.forwarding(layout, supporting);
        ffi::forward(&message, message.len(), &MADE_UP, options)
    });
    assert_eq!(plain, embedded);
    plain
}

#[test]
fn forwarding() {
    assert_eq!(forward(0x200, 0x2000, false), Answer::refused(16, 0));
    assert_eq!(forward(0x100, 0x2000, false), FORWARD);
    assert_eq!(forward(0x100, 0x11000, false), Answer::refused(14, 0));
    assert_eq!(forward(0x100, 0x11000, true), FORWARD);
    assert_eq!(forward(0x10200, 0x1000, false), FORWARD);
    assert_eq!(forward(0x10200, 0x1000, true), Answer::refused(15, 0));
}
