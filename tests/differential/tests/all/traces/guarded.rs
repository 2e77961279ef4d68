//! No function for traces reads or writes outside of what it is lent; as for
//! the structures, a fault here ends the program.

use super::compose::{any_case as any_draft, draft};
use super::events::note;
use super::parts;
use super::read::{self, any_case};
use crate::run::{run, Wanted};
use crate::spare::spare;
use decoder::generate::{any_layout, scenario, Scenario, Step, NAMES};
use decoder::{Activity, Event};
use differential::compare::compose::{compare_compose, Draft};
use differential::compare::events::{compare_event, Buffers};
use differential::compare::given::Given;
use differential::compare::numbers::Spare;
use differential::guard::{Edge, Guarded, EDGES};
use differential::spread::traces::Before;
use differential::spread::Spread;

#[test]
fn generated_traces() {
    let (mut area, wanted) = (Guarded::new(), Wanted::default());
    run("guarded traces", 20_000, wanted, |random, spread| {
        let layout = any_layout(random);
        let (message, sheet) = any_case(random, layout);
        let name = (random.below(3), random.pick(&NAMES));
        // The message alone, so that its end is the buffer's.
        let exact = message.buffer.get(..message.length).unwrap_or_default();
        for edge in EDGES {
            let given = Given {
                buffer: area.lend(exact, edge),
                length: exact.len(),
                layout: message.layout,
                spare: spare(random),
            };
            read::compare(given, &sheet, spread);
            parts::group(given, &sheet, name.0, spread);
            parts::name(given, &sheet, name, spread);
        }
    });
}

/// Composed message and user data each lie at the edge of an area.
#[test]
fn generated_values() {
    let (mut area, mut user) = (Guarded::new(), Guarded::new());
    let wanted = Wanted::default();
    run("guarded composed", 5_000, wanted, |random, spread| {
        let (case, spare) = (any_draft(random), spare(random));
        for edge in EDGES {
            let lent = Draft {
                user_data: user.lend(&case.user_data, edge),
                ..draft(&case, spare)
            };
            let answer = compare_compose(&lent, area.lend(&case.buffer, edge));
            spread.of(case.layout).answer("compose", answer);
        }
    });
}

/// Message, report and group each lie at the edge of an area.
fn compare(case: &Scenario, step: &Step, edge: Edge, areas: &mut [Guarded; 3], met: &mut Spread) {
    let (mut message, mut report) = (case.buffer.clone(), case.report.clone());
    let mut theirs = Buffers {
        message: &mut message,
        report: &mut report,
    };
    let [first, second, third] = areas;
    let mut ours = Buffers {
        message: first.lend(&case.buffer, edge),
        report: second.lend(&case.report, edge),
    };
    let event = match step.event() {
        Event::Activity(activity) => Event::Activity(Activity {
            group: third.lend(activity.group, edge),
            ..activity
        }),
        discontinuity => discontinuity,
    };
    let before = Before::new(&case.buffer, case.length, &event);
    let (length, sheet) = (case.length, &case.sheet);
    let result = compare_event(&mut ours, &mut theirs, length, sheet, &event, Spare::NONE);
    note(met, &event, &before, &result);
}

#[test]
fn generated_events() {
    let mut areas = [Guarded::new(), Guarded::new(), Guarded::new()];
    let wanted = Wanted::default();
    run("guarded events", 10_000, wanted, |random, spread| {
        let layout = any_layout(random);
        let case = scenario(random, layout);
        for edge in EDGES {
            for step in &case.events {
                compare(&case, step, edge, &mut areas, spread);
            }
        }
    });
}
