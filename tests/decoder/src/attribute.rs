//! The eight attributes of the TraceRoute group: their order, values, ranges.

/// How many attributes there are.
pub const ATTRIBUTES: usize = 8;

pub(crate) const RECORDED: usize = 1;
pub(crate) const UNRECORDED: usize = 2;
pub(crate) const DISCONTINUITIES: usize = 3;

pub const DETAIL_LOW: u32 = 2;
pub const DETAIL_MEDIUM: u32 = 8;
pub const DETAIL_HIGH: u32 = 32;

/// The largest value of a counter and of MaxActivities.
pub const COUNTER_MAX: u32 = i32::MAX as u32;

pub const ACCUMULATE_NONE: u32 = 0x10003;
pub const ACCUMULATE_IN_MESSAGE: u32 = 0x10004;
pub const ACCUMULATE_WITH_REPLY: u32 = 0x10005;

pub const FORWARD_ALL: u32 = 0x100;
pub const FORWARD_IF_SUPPORTED: u32 = 0x200;
pub const DELIVER_YES: u32 = 0x1000;
pub const DELIVER_NO: u32 = 0x2000;

/// Any bit under this mask in Forward or Deliver is an unrecognised option.
pub const UNRECOGNISED: u32 = 0xFFFF_0000;

/// The eight values.
#[derive(Clone, Copy, Debug, PartialEq, Eq)]
pub struct Values {
    pub detail: u32,
    pub recorded: u32,
    pub unrecorded: u32,
    pub discontinuities: u32,
    pub max_activities: u32,
    pub accumulate: u32,
    pub forward: u32,
    pub deliver: u32,
}

impl Values {
    /// The values from the rules' order.
    pub fn from_array(values: [u32; ATTRIBUTES]) -> Values {
        let [detail, recorded, unrecorded, discontinuities, max_activities, accumulate, forward, deliver] =
            values;
        Values {
            detail,
            recorded,
            unrecorded,
            discontinuities,
            max_activities,
            accumulate,
            forward,
            deliver,
        }
    }

    /// The values in the rules' order.
    pub fn to_array(&self) -> [u32; ATTRIBUTES] {
        [
            self.detail,
            self.recorded,
            self.unrecorded,
            self.discontinuities,
            self.max_activities,
            self.accumulate,
            self.forward,
            self.deliver,
        ]
    }

    /// Whether each value is in its own range; no relation between them is asked.
    pub fn in_range(&self) -> bool {
        let counters = [
            self.recorded,
            self.unrecorded,
            self.discontinuities,
            self.max_activities,
        ];
        matches!(self.detail, DETAIL_LOW | DETAIL_MEDIUM | DETAIL_HIGH)
            && counters.iter().all(|&counter| counter <= COUNTER_MAX)
            && (ACCUMULATE_NONE..=ACCUMULATE_WITH_REPLY).contains(&self.accumulate)
            && exactly_one(self.forward, FORWARD_ALL, FORWARD_IF_SUPPORTED)
            && exactly_one(self.deliver, DELIVER_YES, DELIVER_NO)
    }

    /// The three counters' sum. It needs more than 32 bits.
    pub fn sum(&self) -> u64 {
        u64::from(self.recorded) + u64::from(self.unrecorded) + u64::from(self.discontinuities)
    }

    /// Whether one more event would pass the limit; MaxActivities 0 is none.
    pub fn limit_reached(&self) -> bool {
        self.max_activities != 0 && self.sum() + 1 > u64::from(self.max_activities)
    }
}

/// All bits but the two are ignored here, unrecognised options too.
fn exactly_one(value: u32, first: u32, second: u32) -> bool {
    (value & first != 0) != (value & second != 0)
}
