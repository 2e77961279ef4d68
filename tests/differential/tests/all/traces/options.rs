//! Every option bit in every function that is given a message, with the form's
//! bit and without it: a bit that a function does not name changes nothing.

use super::sample::{composed, FORMS, USER_DATA, VALUES};
use decoder::generate::Piece;
use decoder::sample::MADE_UP;
use decoder::{Activity, Embedding, Event, Layout, Level, Settings, Sheet, Values};
use differential::compare::compose::{compare_compose, Draft};
use differential::compare::events::{compare_event, Buffers};
use differential::compare::given::Given;
use differential::compare::numbers::Spare;
use differential::compare::parts::{compare_group, compare_name};
use differential::compare::structures::{self, compare_step};
use differential::compare::text::Text;
use differential::compare::traces::{compare_decisions, compare_read};

/// The functions that only read, all of which accept the trace.
fn reading(given: Given, text: &mut Text) {
    let sheet = Sheet::new(MADE_UP);
    let answers = structures::compare(given, text)
        .into_iter()
        .chain(compare_decisions(given, &sheet))
        .chain([
            ("step", compare_step(given, 100, 1)),
            ("read", compare_read(given, &sheet)),
        ]);
    for (entry, answer) in answers {
        assert!(!answer.is_refused(), "{entry}: {answer:?}, {given:?}");
    }
    assert!(compare_group(given, &sheet, 0).is_some());
    assert!(compare_name(given, &sheet, (0, 3001)).is_some());
}

fn composing(layout: Layout, spare: Spare) {
    let draft = Draft {
        layout,
        sheet: Sheet::new(MADE_UP),
        values: Values::from_array(VALUES),
        embedding: Embedding::NONE,
        user_data: USER_DATA,
        spare,
    };
    assert!(!compare_compose(&draft, &mut [0; 220]).is_refused());
}

/// One event, which is accepted.
fn event(message: &[u8], event: &Event, spare: Spare) {
    let [mut ours, mut theirs] = [0; 2].map(|_| [message, &[0xEE; 20]].concat());
    let [mut our_report, mut their_report] = [[0xDD; 60]; 2];
    let result = compare_event(
        &mut Buffers {
            message: &mut ours,
            report: &mut our_report,
        },
        &mut Buffers {
            message: &mut theirs,
            report: &mut their_report,
        },
        message.len(),
        &Sheet::new(MADE_UP),
        event,
        spare,
    );
    assert!(result.is_ok(), "{result:?}");
}

/// A discontinuity, and activities, with all settings.
fn events(message: &[u8], layout: Layout, spare: Spare) {
    let group = Piece::group(8005, &[]).bytes;
    for bits in 0..8 {
        let settings = Settings {
            activity_recording: bits & 1 != 0,
            trace_route_messaging: bits & 2 != 0,
            layout,
        };
        let activity = Event::Activity(Activity {
            level: Level::Low,
            group: &group,
            reports_asked: bits & 4 != 0,
            settings,
        });
        event(message, &activity, spare);
        event(message, &Event::Discontinuity(settings), spare);
    }
}

/// A trace that accumulates, with one Activity group in it already.
fn trace(layout: Layout) -> Vec<u8> {
    let mut values = VALUES;
    values[5] = 0x10004;
    let mut message = composed(layout, values, USER_DATA);
    let group = Piece::group(8005, &[Piece::string(3001, b"QM1")]).bytes;
    let length = message.len();
    message.resize(length + group.len(), 0);
    let event = Event::Activity(Activity {
        level: Level::Low,
        group: &group,
        reports_asked: false,
        settings: Settings {
            activity_recording: false,
            trace_route_messaging: true,
            layout,
        },
    });
    let sheet = Sheet::new(MADE_UP);
    let applied = decoder::apply(&mut message, length, &sheet, &event, &mut []);
    assert!(applied.is_ok_and(|applied| applied.appended));
    message
}

#[test]
fn every_bit() {
    let mut text = Text::new();
    let one_each = (0..32).map(|bit| 1 << bit);
    for bits in one_each.chain([0, u32::MAX]) {
        let spare = Spare {
            bits,
            ..Spare::NONE
        };
        for layout in FORMS {
            let message = trace(layout);
            let given = Given {
                spare,
                ..Given::whole(&message, layout)
            };
            reading(given, &mut text);
            composing(layout, spare);
            events(&message, layout, spare);
        }
    }
}
