//! Demand 3 replayed through the library: one claim about the whole list of
//! events, refused ones included. In both forms, and in the embedded one the
//! sender's fields and the user data stay as they were, wherever these stand.

use super::show;
use super::stage::Stage;
use crate::run::{run, Wanted};
use decoder::generate::{any_layout, pair, Pair, Random, Step};
use decoder::{lent_group_is_sound, Event, Layout, Sheet, Values};
use differential::compare::bytes::same;
use differential::compare::given::Given;
use differential::compare::numbers::Spare;
use differential::compare::traces::read;
use differential::failure::{hex, OnFailure};
use differential::ffi::{Answer, Contents, Done};
use differential::spread::Spread;

/// One trace and what the claim has to remember of it.
struct Side {
    stage: Stage,
    layout: Layout,
    sheet: Sheet,
    first: Contents,
    user_data: Vec<u8>,
    accepted: u64,
    rejected: bool,
}

impl Side {
    fn new(buffer: &[u8], pair: &Pair) -> Side {
        let mut stage = Stage::new(&pair.first);
        stage.buffer = buffer.to_vec();
        let (layout, sheet) = (pair.first.layout, pair.first.sheet);
        let (first, place) = contents(&stage, layout, &sheet);
        Side {
            user_data: stage.buffer[place..stage.length].to_vec(),
            stage,
            layout,
            sheet,
            first,
            accepted: 0,
            rejected: false,
        }
    }

    /// The values that the library reads. The trace stays sound, and what an
    /// event has nothing to do with stays as it was.
    fn values(&self) -> Values {
        let (now, place) = contents(&self.stage, self.layout, &self.sheet);
        assert_eq!(now.fields, self.first.fields, "fields");
        assert_eq!(now.format, self.first.format, "format");
        let user_data = &self.stage.buffer[place..self.stage.length];
        same("user data", user_data, &self.user_data);
        Values::from_array(now.values)
    }

    /// The counters' sum at first.
    fn start(&self) -> u64 {
        Values::from_array(self.first.values).sum()
    }

    /// Whether this event is to be rejected for the limit.
    fn over(&self, event: &Event) -> bool {
        let judged = match event {
            Event::Discontinuity(_) => true,
            Event::Activity(activity) => lent_group_is_sound(activity.group),
        };
        let values = self.values();
        let limit = u64::from(values.max_activities);
        judged && limit != 0 && values.sum() + 1 > limit
    }

    /// Gives the event and holds the part of the claim about one trace.
    fn follow(&mut self, step: &Step) -> (Answer, Done) {
        let event = step.event();
        let over = self.over(&event);
        let before = self.stage.clone();
        let (answer, done) = self.stage.library(&self.sheet, &event, Spare::NONE);
        assert_eq!(answer.number() == 10, over, "rejected for the limit");
        if self.rejected || answer.is_refused() {
            same("a stopped trace", &self.stage.buffer, &before.buffer);
            same("its report", &self.stage.report, &before.report);
            assert_eq!(self.stage.length, before.length);
        }
        self.rejected |= over;
        self.accepted += u64::from(!answer.is_refused());
        assert_eq!(self.values().sum(), self.start() + self.accepted, "sum");
        (answer, done)
    }

    /// The message without the limit's four bytes.
    fn rest(&self, limit: usize) -> [&[u8]; 2] {
        let message = &self.stage.buffer[..self.stage.length];
        [&message[..limit], &message[limit + 4..]]
    }
}

/// What the library reads of a sound trace, and where its user data stand.
fn contents(stage: &Stage, layout: Layout, sheet: &Sheet) -> (Contents, usize) {
    let given = Given {
        buffer: &stage.buffer,
        length: stage.length,
        layout,
        spare: Spare::NONE,
    };
    let (answer, contents) = read(given, sheet);
    assert!(!answer.is_refused(), "no sound trace any more: {answer:?}");
    (contents, answer.value() as usize)
}

/// Lengths and messages but for the limit, and the whole report buffers.
fn agree(first: &Side, second: &Side, limit: usize) {
    assert_eq!(first.stage.length, second.stage.length, "lengths");
    same("report", &first.stage.report, &second.stage.report);
    let (ours, theirs) = (first.rest(limit), second.rest(limit));
    same("message before the limit", ours[0], theirs[0]);
    same("message behind the limit", ours[1], theirs[1]);
}

fn replay(pair: &Pair, spread: &mut Spread) {
    let counts = spread.of(pair.first.layout);
    let mut first = Side::new(&pair.first.buffer, pair);
    let mut second = Side::new(&pair.second, pair);
    agree(&first, &second, pair.limit_place);
    for (index, step) in pair.first.events.iter().enumerate() {
        let _told = OnFailure(|| format!("at event {index}"));
        let (ours, theirs) = (first.follow(step), second.follow(step));
        if !first.rejected {
            assert_eq!(ours, theirs, "answers before the first's limit");
            agree(&first, &second, pair.limit_place);
        }
        counts.answer("first", ours.0);
        counts.answer("second", theirs.0);
        let moved = theirs.1.appended == 1 && !second.user_data.is_empty();
        counts.note("user data moved", u32::from(moved));
    }
    counts.note("first rejected", u32::from(first.rejected));
    counts.note("second rejected", u32::from(second.rejected));
    counts.note("parted", u32::from(second.accepted > first.accepted));
}

fn case(random: &mut Random, spread: &mut Spread) {
    let layout = any_layout(random);
    let pair = pair(random, layout).expect("two sound traces");
    let _told = OnFailure(|| {
        let second = hex("second trace's buffer", &pair.second);
        format!("{}\n{second}", show::scenario(&pair.first))
    });
    replay(&pair, spread);
}

const WANTED: Wanted = Wanted {
    plain: &[
        ("first", &[0, 10], 16_000),
        ("first", &[9, 12, 13], 1_600),
        ("second", &[0], 28_000),
        ("second", &[9, 10, 12, 13], 2_500),
        ("second", &[11], 470),
        ("first rejected", &[0, 1], 5_100),
        ("second rejected", &[0], 12_000),
        ("second rejected", &[1], 980),
        ("parted", &[0, 1], 4_000),
        ("user data moved", &[0], 42_000),
    ],
    embedded: &[
        ("first", &[0, 10], 16_000),
        ("first", &[9, 12, 13], 1_600),
        ("second", &[0], 28_000),
        ("second", &[9, 10, 12, 13], 2_400),
        ("second", &[11], 530),
        ("first rejected", &[0, 1], 5_100),
        ("second rejected", &[0], 11_000),
        ("second rejected", &[1], 990),
        ("parted", &[0, 1], 4_000),
        ("user data moved", &[0], 37_000),
        ("user data moved", &[1], 5_000),
    ],
};

#[test]
fn generated_pairs() {
    run("pairs of traces", 40_000, WANTED, case);
}
