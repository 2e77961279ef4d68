//! All functions that take a message on the arguments of one case.

use crate::case::Case;
use crate::message::first_place;
use differential::compare::bytes::same;
use differential::compare::compose::compare_compose;
use differential::compare::events::{compare_event, Buffers};
use differential::compare::given::Given;
use differential::compare::parts::{compare_group, compare_name};
use differential::compare::structures::{self, compare_step};
use differential::compare::text::Text;
use differential::compare::traces::{compare_decisions, compare_read};
use differential::failure::OnFailure;
use differential::guard::Guarded;
use differential::spread::messages::{note_checked, note_step};
use differential::spread::traces::{note_group, note_read, Before};
use differential::spread::{Counts, Spread};
use std::hint::black_box;

/// So many structures are asked for one at a time; a message can have
/// thousands, and these are asked for by check, tally and listing anyway.
const STEPS: usize = 64;

/// What is lent again and again, and how often each answer came.
#[derive(Default)]
pub struct Bench {
    message: Guarded,
    report: Guarded,
    group: Guarded,
    user_data: Guarded,
    text: Text,
    pub spread: Spread,
}

impl Bench {
    pub fn compare(&mut self, case: &Case) {
        let _told = OnFailure(|| format!("{case:02x?}"));
        let sheet = case.sheet;
        self.reading(case);
        self.composing(case);
        self.events(case);
        assert_eq!(black_box(&case.sheet), &sheet, "the sheet");
    }

    /// The functions that only read, and that they do.
    fn reading(&mut self, case: &Case) {
        let counts = self.spread.of(case.layout);
        let given = case.given(self.message.lend(&case.buffer, case.edge));
        let checked = structures::compare(given, &mut self.text);
        note_checked(counts, &given, checked[0].1);
        let read = compare_read(given, &case.sheet);
        note_read(counts, &given, read);
        counts.answer("read", read);
        let decided = compare_decisions(given, &case.sheet);
        for (entry, answer) in checked.into_iter().chain(decided) {
            counts.answer(entry, answer);
        }
        steps(case, given, counts);
        parts(case, given, counts);
        same("the message", given.buffer, &case.buffer);
    }

    fn composing(&mut self, case: &Case) {
        let before: Vec<u8> = (0..case.composed).map(|place| place as u8 | 1).collect();
        let buffer = self.message.lend(&before, case.edge);
        let user_data = &*self.user_data.lend(&case.user_data, case.edge);
        let answer = compare_compose(&case.draft(user_data), buffer);
        same("the user data", user_data, &case.user_data);
        self.spread.of(case.layout).answer("compose", answer);
    }

    /// Events one after another, each on what the one before has left.
    fn events(&mut self, case: &Case) {
        let before: Vec<u8> = (0..case.report).map(|place| place as u8 | 1).collect();
        let (mut message, mut report) = (case.buffer.clone(), before.clone());
        let mut theirs = Buffers {
            message: &mut message,
            report: &mut report,
        };
        let mut ours = Buffers {
            message: self.message.lend(&case.buffer, case.edge),
            report: self.report.lend(&before, case.edge),
        };
        let group = &*self.group.lend(&case.group, case.edge);
        let (sheet, mut length) = (&case.sheet, case.length);
        let counts = self.spread.of(case.layout);
        for event in case.events(group) {
            let before = Before::new(ours.message, length, &event);
            let result = compare_event(&mut ours, &mut theirs, length, sheet, &event, case.spare);
            length = result.map_or(length, |applied| applied.message_length);
            counts.event(&event, &result);
            before.note(counts, case.layout, &result);
        }
        same("the lent group", group, &case.group);
    }
}

/// The structure at the chosen place, and one after another from the header's
/// end on, all taken to have the chosen depth.
fn steps(case: &Case, given: Given, counts: &mut Counts) {
    let depth = case.depth;
    let mut step = |place| {
        let answer = compare_step(given, place, depth);
        counts.answer("step", answer);
        note_step(counts, &given, place, answer);
    };
    step(case.place);
    let mut place = first_place(case.layout);
    for _ in 0..STEPS {
        step(place);
        match decoder::step(given.buffer, given.length, given.layout, place, depth) {
            Ok((_, behind)) => place = behind,
            Err(_) => return,
        }
    }
}

/// The chosen group and name, and the first groups with the same name.
fn parts(case: &Case, given: Given, counts: &mut Counts) {
    for n in [case.n, 0, 1] {
        let found = compare_group(given, &case.sheet, n);
        counts.note("group", u32::from(found.is_none()));
        if let Some(part) = found {
            note_group(counts, &given, part);
        }
        counts.name(compare_name(given, &case.sheet, (n, case.identifier)));
    }
}
