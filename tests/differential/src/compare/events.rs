//! Events: what each answers and leaves in the buffers.

use super::bytes::same;
use super::numbers::Spare;
use super::{expect, fill};
use crate::ffi::{self, Activity, Answer, Done};
use decoder::{Applied, Event, EventRefusal, Sheet};

/// What an event may write to.
pub struct Buffers<'a> {
    pub message: &'a mut [u8],
    pub report: &'a mut [u8],
}

/// Gives the event to the library.
pub fn give(
    to: &mut Buffers,
    length: usize,
    sheet: &Sheet,
    event: &Event,
    spare: Spare,
) -> (Answer, Done) {
    let sheet = &sheet.identifiers;
    let (answer, done) = fill::between(fill::DONE, |done| match event {
        Event::Discontinuity(settings) => {
            let options = spare.reading(settings.layout);
            ffi::discontinuity(to.message, length, sheet, options, done)
        }
        Event::Activity(activity) => {
            let event = arguments(activity, spare);
            ffi::activity(to.message, length, sheet, &event, to.report, done)
        }
    });
    if !answer.is_refused() {
        // The answer and what was done both say it.
        assert_eq!(answer.value(), done.message_length);
    }
    (answer, done)
}

fn arguments<'a>(activity: &decoder::Activity<'a>, spare: Spare) -> Activity<'a> {
    Activity {
        options: spare.options(activity),
        level: spare.level(activity.level),
        group: activity.group,
    }
}

/// The function that an event is given to.
pub fn name(event: &Event) -> &'static str {
    match event {
        Event::Discontinuity(_) => "discontinuity",
        Event::Activity(_) => "activity",
    }
}

/// One event on both sides, which have equal bytes before it.
pub fn compare_event(
    ours: &mut Buffers,
    theirs: &mut Buffers,
    length: usize,
    sheet: &Sheet,
    event: &Event,
    spare: Spare,
) -> Result<Applied, EventRefusal> {
    let before = (ours.message.to_vec(), ours.report.to_vec());
    let result = decoder::apply(theirs.message, length, sheet, event, theirs.report);
    let (answer, done) = give(ours, length, sheet, event, spare);
    let name = name(event);
    assert_eq!(answer, expect::event(&result), "{name}");
    assert_eq!(done, expect::done(&result), "{name}: what was done");
    same("the message's buffer", ours.message, theirs.message);
    same("the report's buffer", ours.report, theirs.report);
    if answer.is_refused() {
        same("the buffer after a refusal", ours.message, &before.0);
        same("the report after a refusal", ours.report, &before.1);
    }
    result
}
