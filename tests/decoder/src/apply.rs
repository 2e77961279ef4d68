//! Applying events to a trace (refusals 17, 1, 18, 2 to 13).
//!
//! An event is judged as a whole before the first byte is written, so that a
//! refusal changes nothing.

use crate::attribute::{Values, ACCUMULATE_NONE, ACCUMULATE_WITH_REPLY, COUNTER_MAX};
use crate::embedded::make_way;
use crate::event::{Activity, Applied, Counter, Event, EventRefusal, Settings};
use crate::header::{Header, COUNT_PLACE, HEADER_LENGTH, MESSAGE_MAX};
use crate::layout::{Form, Layout};
use crate::lent::lent_group_is_sound;
use crate::refusal::Refusal;
use crate::sheet::Sheet;
use crate::trace::{locate, Trace};
use crate::word::{put_bytes, put_word, word};

/// Applies a discontinuity to the trace in the buffer's first `length` bytes,
/// laid out as the settings say.
pub fn discontinuity(
    message: &mut [u8],
    length: usize,
    sheet: &Sheet,
    settings: &Settings,
) -> Result<Applied, EventRefusal> {
    let event = Event::Discontinuity(*settings);
    apply(message, length, sheet, &event, &mut [])
}

/// Applies an activity; a report that is due is written to `report`'s start.
pub fn activity(
    message: &mut [u8],
    length: usize,
    sheet: &Sheet,
    activity: &Activity,
    report: &mut [u8],
) -> Result<Applied, EventRefusal> {
    apply(message, length, sheet, &Event::Activity(*activity), report)
}

/// Applies any event.
pub fn apply(
    message: &mut [u8],
    length: usize,
    sheet: &Sheet,
    event: &Event,
    report: &mut [u8],
) -> Result<Applied, EventRefusal> {
    let layout = event.settings().layout;
    let trace = locate(message, length, layout, sheet)?;
    let plan = plan(&trace.contents.values, event)?;
    let answer = room(&plan, length, message.len(), report.len())?;
    raise(message, &trace, plan.counter);
    if plan.append {
        let end = trace.contents.user_data_place;
        append(message, length, layout, end, plan.group);
    }
    if plan.report {
        put_report(report, plan.group);
    }
    Ok(answer)
}

/// What an event is to do.
struct Plan<'a> {
    counter: Counter,
    append: bool,
    report: bool,
    group: &'a [u8],
}

/// Judges the event against the trace's values: 9, 10, 11 in this order.
fn plan<'a>(values: &Values, event: &Event<'a>) -> Result<Plan<'a>, EventRefusal> {
    if let Event::Activity(activity) = event {
        if !lent_group_is_sound(activity.group) {
            return Err(Refusal::whole(9).into());
        }
    }
    if values.limit_reached() {
        return Err(EventRefusal {
            number: 10,
            place: 0,
            reply_owed: Some(values.accumulate == ACCUMULATE_WITH_REPLY),
        });
    }
    let plan = match event {
        Event::Discontinuity(_) => Plan {
            counter: Counter::Discontinuity,
            append: false,
            report: false,
            group: &[],
        },
        Event::Activity(activity) => activity_plan(values, activity),
    };
    if plan.counter.value(values) == COUNTER_MAX {
        return Err(Refusal::whole(11).into());
    }
    Ok(plan)
}

/// Whether an activity is reported, accumulated, recorded.
fn activity_plan<'a>(values: &Values, activity: &Activity<'a>) -> Plan<'a> {
    // The trace wants all levels up to its Detail, that one included. What lies
    // above it is neither reported nor accumulated.
    let looked_at = activity.level.value() <= values.detail;
    let report = looked_at && activity.reports_asked && activity.settings.activity_recording;
    let append = looked_at
        && values.accumulate != ACCUMULATE_NONE
        && activity.settings.trace_route_messaging;
    Plan {
        counter: if report || append {
            Counter::Recorded
        } else {
            Counter::Unrecorded
        },
        append,
        report,
        group: activity.group,
    }
}

/// Finds the room before anything is written: 12, by the whole message with
/// its user data, then 13. The sums stay below 2 x 65,536, since message and
/// group are sound.
fn room(
    plan: &Plan,
    length: usize,
    buffer: usize,
    report_buffer: usize,
) -> Result<Applied, EventRefusal> {
    let message_length = if plan.append {
        length.saturating_add(plan.group.len())
    } else {
        length
    };
    if plan.append && (message_length > buffer || message_length > MESSAGE_MAX) {
        return Err(Refusal::whole(12).into());
    }
    let report_length = if plan.report {
        HEADER_LENGTH.saturating_add(plan.group.len())
    } else {
        0
    };
    if report_length > report_buffer {
        return Err(Refusal::whole(13).into());
    }
    Ok(Applied {
        counter: plan.counter,
        appended: plan.append,
        report_length,
        message_length,
    })
}

/// Raises the counter's Value by one.
fn raise(message: &mut [u8], trace: &Trace, counter: Counter) {
    if let Some(place) = trace.value_place(counter.attribute()) {
        // 11 has excluded the largest value.
        put_word(
            message,
            place,
            counter.value(&trace.contents.values).saturating_add(1),
        );
    }
}

/// Writes the group behind the PCF part's old end and counts it in the header.
/// User data that stand there move back first.
fn append(message: &mut [u8], length: usize, layout: Layout, end: usize, group: &[u8]) {
    if layout.form == Form::Embedded {
        make_way(message, length, end, group.len());
    }
    put_bytes(message, end, group);
    let place = layout.pcf_start() + COUNT_PLACE;
    if let Some(count) = word(message, place) {
        // 65,536 bytes hold some thousands of structures, so this cannot overflow.
        put_word(message, place, count.saturating_add(1));
    }
}

fn put_report(report: &mut [u8], group: &[u8]) {
    Header::REPORT.put(report);
    put_bytes(report, HEADER_LENGTH, group);
}
