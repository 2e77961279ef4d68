//! Demand 3 replayed on many pairs of traces: one claim about the whole list
//! of events, refused ones included.

use decoder::generate::{pair, Pair, Random, Step};
use decoder::*;

/// One trace with its report buffer and what the claim needs to remember.
struct Side {
    buffer: Vec<u8>,
    length: usize,
    layout: Layout,
    sheet: Sheet,
    report: Vec<u8>,
    user_data: Vec<u8>,
    start: u64,
    accepted: u64,
    rejected: bool,
}

type Answer = Result<Applied, EventRefusal>;

impl Side {
    fn new(buffer: &[u8], pair: &Pair) -> Side {
        let mut side = Side {
            buffer: buffer.to_vec(),
            length: pair.first.length,
            layout: pair.first.layout,
            sheet: pair.first.sheet,
            report: pair.first.report.clone(),
            user_data: Vec::new(),
            start: 0,
            accepted: 0,
            rejected: false,
        };
        side.start = side.values().sum();
        side.user_data = side.user_data_now().to_vec();
        side
    }

    /// The trace stays sound after every event.
    fn contents(&self) -> Contents {
        read(&self.buffer, self.length, self.layout, &self.sheet).expect("a sound trace")
    }

    fn values(&self) -> Values {
        self.contents().values
    }

    fn user_data_now(&self) -> &[u8] {
        &self.buffer[self.contents().user_data_place..self.length]
    }

    fn apply(&mut self, event: &Event) -> Answer {
        let answer = apply(
            &mut self.buffer,
            self.length,
            &self.sheet,
            event,
            &mut self.report,
        );
        if let Ok(applied) = &answer {
            self.length = applied.message_length;
            self.accepted += 1;
        }
        answer
    }

    /// Applies the event and holds the part of the claim about one trace.
    fn follow(&mut self, step: &Step) -> Answer {
        let event = step.event();
        assert_eq!(event.settings().layout, self.layout);
        let judged = match event {
            Event::Discontinuity(_) => true,
            Event::Activity(activity) => lent_group_is_sound(activity.group),
        };
        let values = self.values();
        let limit = u64::from(values.max_activities);
        let over = limit != 0 && values.sum() + 1 > limit;
        let before = (self.buffer.clone(), self.length, self.report.clone());
        let answer = self.apply(&event);
        let limited = matches!(answer, Err(EventRefusal { number: 10, .. }));
        assert_eq!(limited, judged && over);
        if answer.is_err() || self.rejected {
            assert_eq!(
                (&self.buffer, self.length, &self.report),
                (&before.0, before.1, &before.2)
            );
        }
        if self.rejected {
            assert!(matches!(answer, Err(EventRefusal { number: 9 | 10, .. })));
        }
        self.rejected |= limited;
        assert_eq!(self.values().sum(), self.start + self.accepted);
        assert_eq!(self.user_data_now(), self.user_data);
        answer
    }

    /// The message without the limit's four bytes.
    fn rest(&self, limit_place: usize) -> (&[u8], &[u8]) {
        let message = &self.buffer[..self.length];
        (&message[..limit_place], &message[limit_place + 4..])
    }
}

/// What a run over the pair met.
#[derive(Default)]
struct Met {
    first_rejected: usize,
    second_rejected: usize,
    parted: usize,
    over_at_start: usize,
    accepted: u64,
    refused_otherwise: usize,
    /// Appended behind the PCF part of a trace with user data.
    moved: usize,
}

fn replay(pair: &Pair, met: &mut Met) {
    let mut first = Side::new(&pair.first.buffer, pair);
    let mut second = Side::new(&pair.second, pair);
    assert_eq!(first.rest(pair.limit_place), second.rest(pair.limit_place));
    for (index, step) in pair.first.events.iter().enumerate() {
        let answer = first.follow(step);
        let other = second.follow(step);
        let appended = answer.is_ok_and(|applied| applied.appended);
        met.moved += usize::from(appended && !first.user_data.is_empty());
        if !first.rejected {
            assert_eq!(answer, other);
            assert_eq!(first.report, second.report);
            assert_eq!(first.length, second.length);
            assert_eq!(first.rest(pair.limit_place), second.rest(pair.limit_place));
            met.refused_otherwise += usize::from(answer.is_err());
        } else if index == 0 && first.values().limit_reached() {
            met.over_at_start += 1;
        }
    }
    met.first_rejected += usize::from(first.rejected);
    met.second_rejected += usize::from(second.rejected);
    met.parted += usize::from(first.rejected && second.accepted > first.accepted);
    met.accepted += first.accepted;
}

/// Replays pairs of one form, and sees that the claim was put to the test in
/// all its parts.
fn replay_many(layout: Layout) -> Met {
    let mut random = Random::new(3);
    let mut met = Met::default();
    for _ in 0..3_000 {
        let pair = pair(&mut random, layout).expect("a sound pair");
        assert_eq!(pair.first.layout, layout);
        replay(&pair, &mut met);
    }
    assert!(met.first_rejected > 500, "{}", met.first_rejected);
    assert!(met.second_rejected > 100, "{}", met.second_rejected);
    assert!(met.parted > 300, "{}", met.parted);
    assert!(met.over_at_start > 100, "{}", met.over_at_start);
    assert!(met.accepted > 2_000, "{}", met.accepted);
    assert!(met.refused_otherwise > 300, "{}", met.refused_otherwise);
    met
}

#[test]
fn demand_3_on_many_plain_pairs() {
    assert_eq!(replay_many(Layout::PLAIN).moved, 0);
}

#[test]
fn demand_3_on_many_embedded_pairs() {
    let moved = replay_many(Layout::EMBEDDED).moved;
    assert!(moved > 300, "{moved}");
}
