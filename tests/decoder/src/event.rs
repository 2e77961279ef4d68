//! Events on a trace, and the answers to them.

use crate::attribute::{
    Values, DETAIL_HIGH, DETAIL_LOW, DETAIL_MEDIUM, DISCONTINUITIES, RECORDED, UNRECORDED,
};
use crate::layout::Layout;
use crate::refusal::Refusal;

/// An activity's level.
#[derive(Clone, Copy, Debug, PartialEq, Eq)]
pub enum Level {
    Low,
    Medium,
    High,
}

impl Level {
    pub const ALL: [Level; 3] = [Level::Low, Level::Medium, Level::High];

    /// The level on Detail's scale, so that the two compare as numbers.
    pub fn value(self) -> u32 {
        match self {
            Level::Low => DETAIL_LOW,
            Level::Medium => DETAIL_MEDIUM,
            Level::High => DETAIL_HIGH,
        }
    }
}

/// What the queue manager does, and how the trace is laid out.
#[derive(Clone, Copy, Debug, PartialEq, Eq)]
pub struct Settings {
    pub activity_recording: bool,
    pub trace_route_messaging: bool,
    /// The trace's layout. Lent groups and reports are plain in any case.
    pub layout: Layout,
}

/// An activity with its lent Activity group.
#[derive(Clone, Copy, Debug, PartialEq, Eq)]
pub struct Activity<'a> {
    pub level: Level,
    pub group: &'a [u8],
    /// Whether the descriptor asks for activity reports.
    pub reports_asked: bool,
    pub settings: Settings,
}

#[derive(Clone, Copy, Debug, PartialEq, Eq)]
pub enum Event<'a> {
    /// Of its settings only the layout has a meaning.
    Discontinuity(Settings),
    Activity(Activity<'a>),
}

impl Event<'_> {
    pub fn settings(&self) -> &Settings {
        match self {
            Event::Discontinuity(settings) => settings,
            Event::Activity(activity) => &activity.settings,
        }
    }
}

/// Which counter rose.
#[derive(Clone, Copy, Debug, PartialEq, Eq)]
pub enum Counter {
    Recorded,
    Unrecorded,
    Discontinuity,
}

impl Counter {
    /// The counter's attribute in the rules' order.
    pub(crate) fn attribute(self) -> usize {
        match self {
            Counter::Recorded => RECORDED,
            Counter::Unrecorded => UNRECORDED,
            Counter::Discontinuity => DISCONTINUITIES,
        }
    }

    /// Where the counter stands now.
    pub(crate) fn value(self, values: &Values) -> u32 {
        match self {
            Counter::Recorded => values.recorded,
            Counter::Unrecorded => values.unrecorded,
            Counter::Discontinuity => values.discontinuities,
        }
    }
}

/// The answer to an accepted event.
#[derive(Clone, Copy, Debug, PartialEq, Eq)]
pub struct Applied {
    pub counter: Counter,
    pub appended: bool,
    /// The report's length, 0 where none is due.
    pub report_length: usize,
    /// The new message length.
    pub message_length: usize,
}

/// A refused event.
#[derive(Clone, Copy, Debug, PartialEq, Eq)]
pub struct EventRefusal {
    pub number: u8,
    pub place: usize,
    /// With 10 whether a reply is owed, none with all other numbers.
    pub reply_owed: Option<bool>,
}

impl From<Refusal> for EventRefusal {
    fn from(refusal: Refusal) -> EventRefusal {
        EventRefusal {
            number: refusal.number,
            place: refusal.place,
            reply_owed: None,
        }
    }
}
