//! Lists of events on one trace.

use super::group::lent_group;
use super::layout::other_layout;
use super::random::Random;
use super::trace::{any_trace, sound_trace, TraceCase};
use super::user_data::fill;
use crate::event::{Activity, Event, Level, Settings};
use crate::header::MESSAGE_MAX;
use crate::layout::{Form, Layout};
use crate::sheet::Sheet;

/// An event that owns its lent group.
#[derive(Clone, Debug, PartialEq, Eq)]
pub enum Step {
    Discontinuity(Settings),
    Activity {
        level: Level,
        group: Vec<u8>,
        reports_asked: bool,
        settings: Settings,
    },
}

impl Step {
    pub fn event(&self) -> Event<'_> {
        match self {
            Step::Discontinuity(settings) => Event::Discontinuity(*settings),
            Step::Activity {
                level,
                group,
                reports_asked,
                settings,
            } => Event::Activity(Activity {
                level: *level,
                group,
                reports_asked: *reports_asked,
                settings: *settings,
            }),
        }
    }

    fn group_length(&self) -> usize {
        match self {
            Step::Discontinuity(_) => 0,
            Step::Activity { group, .. } => group.len(),
        }
    }

    fn layout(&mut self) -> &mut Layout {
        match self {
            Step::Discontinuity(settings) | Step::Activity { settings, .. } => &mut settings.layout,
        }
    }
}

/// A trace in its buffer, a report buffer, and events one after another.
#[derive(Clone, Debug, PartialEq, Eq)]
pub struct Scenario {
    pub buffer: Vec<u8>,
    pub length: usize,
    /// The layout that the trace is to be read in; each event names its own.
    pub layout: Layout,
    pub sheet: Sheet,
    pub report: Vec<u8>,
    pub events: Vec<Step>,
}

/// Events on a trace that is mostly sound; a few events name another layout
/// than the trace's.
pub fn scenario(random: &mut Random, layout: Layout) -> Scenario {
    let case = if random.chance(70) {
        sound_trace(random, layout)
    } else {
        any_trace(random, layout)
    };
    let mut scenario = stage(random, case);
    for step in &mut scenario.events {
        if random.chance(2) {
            let layout = step.layout();
            *layout = other_layout(*layout);
        }
    }
    scenario
}

/// Events on a sound trace, all of which name its layout.
pub fn sound_scenario(random: &mut Random, layout: Layout) -> Scenario {
    let case = sound_trace(random, layout);
    stage(random, case)
}

fn stage(random: &mut Random, mut case: TraceCase) -> Scenario {
    let events = events(random, case.lent.layout, &case.sheet);
    // A wrong length stays wrong: only a message inside its buffer gets room.
    if case.lent.length <= case.lent.buffer.len() && case.lent.buffer.len() <= MESSAGE_MAX {
        case.lent.buffer.truncate(case.lent.length);
        let room = if crowd_out(random, &mut case, &events) {
            // Here the most bytes of a message are to be what there is no room in.
            all_groups(&events) + random.below(100)
        } else {
            room(random, &events)
        };
        case.lent.buffer.extend(random.bytes(room));
    }
    let report_size = report_size(random, &events);
    Scenario {
        buffer: case.lent.buffer,
        length: case.lent.length,
        layout: case.lent.layout,
        sheet: case.sheet,
        report: random.bytes(report_size),
        events,
    }
}

/// Now and then has the user data of an embedded trace leave just as much of a
/// message's most bytes as one of the groups needs, or all of them, or one byte
/// less. Whether it did is the answer.
fn crowd_out(random: &mut Random, case: &mut TraceCase, events: &[Step]) -> bool {
    let groups = if random.chance(60) {
        events[random.below(events.len())].group_length()
    } else {
        all_groups(events)
    };
    let length = MESSAGE_MAX.saturating_sub(groups) + random.pick(&[0, 1]);
    let place = case.user_data_place;
    let possible = place <= case.lent.length && place <= length && groups > 0;
    if case.lent.layout.form == Form::Plain || !possible || !random.chance(15) {
        return false;
    }
    case.lent.buffer.truncate(length);
    fill(random, &mut case.lent.buffer, length);
    case.lent.length = length;
    true
}

fn events(random: &mut Random, layout: Layout, sheet: &Sheet) -> Vec<Step> {
    let most = random.pick(&[1, 3, 6, 12]);
    let count = random.between(1, most);
    (0..count).map(|_| step(random, layout, sheet)).collect()
}

/// Reports and settings are mostly on: many activities that are to be recorded
/// find no room, and still most of the accepted ones shall be recorded.
fn step(random: &mut Random, layout: Layout, sheet: &Sheet) -> Step {
    let settings = Settings {
        activity_recording: random.chance(85),
        trace_route_messaging: random.chance(85),
        layout,
    };
    if random.chance(25) {
        return Step::Discontinuity(settings);
    }
    Step::Activity {
        level: Level::ALL[random.below(3)],
        group: lent_group(random, sheet),
        reports_asked: random.chance(70),
        settings,
    }
}

/// Bytes of the events' groups together.
fn all_groups(events: &[Step]) -> usize {
    events.iter().map(Step::group_length).sum()
}

/// Room behind the message: none, for one of the groups, for all of them, or
/// one byte less.
fn room(random: &mut Random, events: &[Step]) -> usize {
    let one = events[random.below(events.len())].group_length();
    let all = all_groups(events);
    match random.below(8) {
        0 => 0,
        1 => one,
        2 => one.saturating_sub(1),
        3 => all,
        4 => all.saturating_sub(1),
        5 => random.below(all + 1),
        _ => all + random.below(100),
    }
}

/// The report buffer for one of the groups, for the longest, or one byte less.
fn report_size(random: &mut Random, events: &[Step]) -> usize {
    let one = 36 + events[random.below(events.len())].group_length();
    let longest = events.iter().map(Step::group_length).max();
    let most = 36 + longest.unwrap_or_default();
    match random.below(10) {
        0 => random.pick(&[0, 1, 35, 36]),
        1 => one,
        2 => one - 1,
        3 => most,
        4 => most - 1,
        _ => most + random.below(100),
    }
}
