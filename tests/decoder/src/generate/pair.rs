//! Pairs of traces for demand 3: alike but for MaxActivities.

use super::event::{sound_scenario, Scenario};
use super::random::Random;
use crate::attribute::{Values, COUNTER_MAX};
use crate::layout::Layout;
use crate::trace::{locate, Trace};
use crate::word::put_word;

const MAX_ACTIVITIES: usize = 4;

/// Two sound traces with the same layout, sheet, buffer size, report buffer and
/// events, which all name that layout; the second's limit is larger, or there
/// is none.
#[derive(Clone, Debug, PartialEq, Eq)]
pub struct Pair {
    pub first: Scenario,
    /// The second trace's buffer; only the message's part is like the first's.
    pub second: Vec<u8>,
    /// Where the limit's four bytes stand.
    pub limit_place: usize,
}

/// A pair; none only if the decoder refuses what is built to be sound.
pub fn pair(random: &mut Random, layout: Layout) -> Option<Pair> {
    let (mut first, trace) = start(random, layout)?;
    let limit_place = trace.value_place(MAX_ACTIVITIES)?;
    let (smaller, larger) = limits(random, &trace.contents.values);
    put_word(&mut first.buffer, limit_place, smaller);
    let mut second = first.buffer.clone();
    put_word(&mut second, limit_place, larger);
    // Bytes behind the message need not be alike.
    let behind = second.len() - first.length;
    second.truncate(first.length);
    second.extend(random.bytes(behind));
    Some(Pair {
        first,
        second,
        limit_place,
    })
}

/// A sound trace with its events. Counters near their end leave hardly any
/// room below a limit, so most of those are drawn again.
fn start(random: &mut Random, layout: Layout) -> Option<(Scenario, Trace)> {
    loop {
        let scenario = sound_scenario(random, layout);
        let trace = locate(&scenario.buffer, scenario.length, layout, &scenario.sheet).ok()?;
        if trace.contents.values.sum() + 20 < u64::from(COUNTER_MAX) || random.chance(10) {
            return Some((scenario, trace));
        }
    }
}

/// The first limit isn't 0, as no limit is the largest.
fn limits(random: &mut Random, values: &Values) -> (u32, u32) {
    let sum = u32::try_from(values.sum()).unwrap_or(COUNTER_MAX);
    let base = if random.chance(15) { 0 } else { sum };
    let smaller = base
        .saturating_add(random.below(10) as u32)
        .clamp(1, COUNTER_MAX);
    let larger = match random.below(4) {
        0 => 0,
        1 => COUNTER_MAX,
        _ => smaller.saturating_add(random.between(1, 8) as u32),
    };
    if larger > smaller && larger <= COUNTER_MAX {
        (smaller, larger)
    } else {
        (smaller, 0)
    }
}
