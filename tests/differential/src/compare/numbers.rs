//! Options and levels as numbers, and what these may be besides.

use crate::ffi::EMBEDDED;
use decoder::{Activity, Form, Layout, Level};

/// `enum gw_option`, but for the form.
const REPORTS_ASKED: u32 = 1;
const ACTIVITY_RECORDING: u32 = 2;
const TRACE_ROUTE_MESSAGING: u32 = 4;
const REMOTE_SUPPORTS: u32 = 8;

/// What a caller is free to give: the number that stands for the low level,
/// which is 2 or any that is no level, and option bits that mean nothing to the
/// function that is called.
#[derive(Clone, Copy, Debug)]
pub struct Spare {
    pub low: u32,
    pub bits: u32,
}

impl Spare {
    /// The numbers of the header and no other bits.
    pub const NONE: Spare = Spare { low: 2, bits: 0 };

    /// `enum gw_level`.
    pub fn level(self, level: Level) -> u32 {
        match level {
            Level::Low => self.low,
            Level::Medium => 8,
            Level::High => 32,
        }
    }

    /// The options of a function that looks at nothing but the form.
    pub fn reading(self, layout: Layout) -> u32 {
        self.with(layout, &[])
    }

    /// An activity's options.
    pub fn options(self, activity: &Activity) -> u32 {
        let settings = &activity.settings;
        let named = [
            (REPORTS_ASKED, activity.reports_asked),
            (ACTIVITY_RECORDING, settings.activity_recording),
            (TRACE_ROUTE_MESSAGING, settings.trace_route_messaging),
        ];
        self.with(settings.layout, &named)
    }

    /// The options of a decision on forwarding.
    pub fn forwarding(self, layout: Layout, supporting: bool) -> u32 {
        self.with(layout, &[(REMOTE_SUPPORTS, supporting)])
    }

    /// The form's bit and those that the function names are set as they should
    /// be, all others at will.
    fn with(self, layout: Layout, named: &[(u32, bool)]) -> u32 {
        let form = (EMBEDDED, layout.form == Form::Embedded);
        named.iter().chain([&form]).fold(
            self.bits,
            |bits, &(bit, on)| {
                if on {
                    bits | bit
                } else {
                    bits & !bit
                }
            },
        )
    }
}
