//! How often each answer occurs over 20,000 generated cases of each form: none
//! may be missing, or a comparison over these cases would be blind there.

use crate::spread_embedded::{self as embedded, Before};
use crate::spread_names::{demand_names, found_name};
use decoder::generate::*;
use decoder::*;
use std::collections::BTreeMap;

/// How often each entry gave each refusal number; 0 stands for acceptance.
#[derive(Default)]
pub struct Spread {
    counts: BTreeMap<(&'static str, u8), usize>,
}

/// One for each form that cases are read in.
#[derive(Default)]
struct Spreads {
    plain: Spread,
    embedded: Spread,
}

impl Spreads {
    fn of(&mut self, layout: Layout) -> &mut Spread {
        match layout.form {
            Form::Plain => &mut self.plain,
            Form::Embedded => &mut self.embedded,
        }
    }
}

impl Spread {
    pub fn note(&mut self, entry: &'static str, number: u8) {
        *self.counts.entry((entry, number)).or_default() += 1;
    }

    fn result<T>(&mut self, entry: &'static str, answer: Result<T, Refusal>) {
        self.note(entry, answer.err().map_or(0, |refusal| refusal.number));
    }

    pub fn count(&self, entry: &'static str, number: u8) -> usize {
        self.counts
            .get(&(entry, number))
            .copied()
            .unwrap_or_default()
    }

    /// Every one of the numbers was met at least so often, and no other.
    pub fn demand(&self, entry: &'static str, numbers: &[u8], least: usize) {
        for number in 0..=18 {
            let count = self.count(entry, number);
            if numbers.contains(&number) {
                assert!(count >= least, "{entry} gave {number} only {count} times");
            } else {
                assert_eq!(count, 0, "{entry} gave {number}");
            }
        }
    }

    /// Of a thousand cases at least so many were 1; all others were 0.
    pub fn demand_share(&self, entry: &'static str, least: usize) {
        let [not, held] = [0, 1].map(|number| self.count(entry, number));
        let share = 1000 * held / (not + held).max(1);
        println!("{entry:15} {share:3} of 1000");
        assert!(share >= least, "{entry}: only {share} of 1000");
    }
}

fn message_case(random: &mut Random, spreads: &mut Spreads) {
    let built = any_layout(random);
    let lent = any_message(random, built);
    let (buffer, length, layout) = (&lent.buffer, lent.length, lent.layout);
    let spread = spreads.of(layout);
    spread.note("other form", u8::from(layout != built));
    let checked = check(buffer, length, layout);
    spread.result("check", checked);
    let (place, depth) = any_place(random, &lent);
    let stepped = step(buffer, length, layout, place, depth);
    spread.result("step", stepped);
    if layout.form == Form::Embedded {
        embedded::note_header(spread, &lent);
        embedded::note_message(spread, &lent, checked);
        embedded::note_step(spread, &lent, place, stepped.is_ok());
    }
}

fn trace_case(random: &mut Random, spreads: &mut Spreads) {
    let built = any_layout(random);
    let case = any_trace(random, built);
    let (buffer, length, sheet) = (&case.lent.buffer, case.lent.length, &case.sheet);
    let layout = case.lent.layout;
    let spread = spreads.of(layout);
    spread.note("other form", u8::from(layout != built));
    spread.result("read", read(buffer, length, layout, sheet));
    spread.result("arrival", arrival(buffer, length, layout, sheet));
    let go = |supporting| forwarding(buffer, length, layout, sheet, supporting);
    spread.result("supporting", go(true));
    spread.result("not supporting", go(false));
    let n = random.below(3);
    let group = activity_group(buffer, length, layout, sheet, n).is_none();
    spread.note("group", u8::from(group));
    let name = named_string(buffer, length, layout, sheet, n, random.pick(&NAMES));
    spread.note("name", u8::from(name == Named::Substitute));
    for n in 0..3 {
        for id in NAMES {
            if let Named::InMessage(part) = named_string(buffer, length, layout, sheet, n, id) {
                found_name(spread, buffer, part.place);
            }
        }
    }
    if layout.form == Form::Embedded {
        embedded::note_header(spread, &case.lent);
    }
}

/// An activity's level and the trace's Detail as one number: low under low,
/// medium, high Detail are 0, 1, 2, medium 3 to 5, high 6 to 8.
fn level_under_detail(event: &Event, detail: u32) -> Option<u8> {
    let Event::Activity(activity) = event else {
        return None;
    };
    let level = Level::ALL.iter().position(|&x| x == activity.level)?;
    let detail = [2, 8, 32].iter().position(|&x| x == detail)?;
    Some((3 * level + detail) as u8)
}

fn event_case(random: &mut Random, spreads: &mut Spreads) {
    let layout = any_layout(random);
    let case = scenario(random, layout);
    let (mut buffer, mut length, mut report) = (case.buffer, case.length, case.report);
    let contents = read(&buffer, length, case.layout, &case.sheet);
    let detail = contents.map_or(0, |contents| contents.values.detail);
    for step in &case.events {
        let event = step.event();
        let layout = event.settings().layout;
        let spread = spreads.of(layout);
        spread.note("event form", u8::from(layout != case.layout));
        let before = (buffer.clone(), report.clone());
        let answer = apply(&mut buffer, length, &case.sheet, &event, &mut report);
        if layout.form == Form::Embedded {
            embedded::note_event(spread, &Before::new(&before.0, length, &event), answer);
        }
        match answer {
            Ok(applied) => {
                length = applied.message_length;
                note_applied(spread, &event, &applied, detail);
            }
            Err(refusal) => {
                assert!(before == (buffer.clone(), report.clone()));
                assert_eq!(refusal.reply_owed.is_some(), refusal.number == 10);
                spread.note("event", refusal.number);
                if let Some(owed) = refusal.reply_owed {
                    spread.note("reply owed", u8::from(owed));
                }
            }
        }
    }
}

fn note_applied(spread: &mut Spread, event: &Event, applied: &Applied, detail: u32) {
    spread.note("event", 0);
    spread.note("appended", u8::from(applied.appended));
    spread.note("reported", u8::from(applied.report_length > 0));
    spread.note("counter", applied.counter as u8);
    if let Some(pair) = level_under_detail(event, detail) {
        let recorded = applied.counter == Counter::Recorded;
        spread.note(if recorded { "recorded" } else { "unrecorded" }, pair);
    }
}

fn composing(random: &mut Random, spreads: &mut Spreads) {
    let layout = any_layout(random);
    let mut case = compose_case(random, layout);
    let before = case.buffer.clone();
    let answer = compose(
        case.layout,
        &case.sheet,
        &case.values,
        &case.embedding,
        &case.user_data,
        &mut case.buffer,
    );
    assert_eq!(answer.is_err(), before == case.buffer);
    let spread = spreads.of(layout);
    spread.result("compose", answer);
    if layout.form == Form::Embedded {
        embedded::note_composed(spread, &case, answer);
    }
}

fn gather(cases: usize) -> Spreads {
    let mut random = Random::new(20_000);
    let mut spreads = Spreads::default();
    for _ in 0..cases {
        match random.below(10) {
            0..=2 => message_case(&mut random, &mut spreads),
            3..=5 => trace_case(&mut random, &mut spreads),
            6..=8 => event_case(&mut random, &mut spreads),
            _ => composing(&mut random, &mut spreads),
        }
    }
    spreads
}

#[test]
fn no_answer_is_missing() {
    let spreads = gather(40_000);
    for (form, spread) in [("plain", &spreads.plain), ("embedded", &spreads.embedded)] {
        for ((entry, number), count) in &spread.counts {
            println!("{form:8} {entry:22} {number:3} {count:6}");
        }
    }
    demand_answers(&spreads.plain, &[]);
    demand_answers(&spreads.embedded, &[18]);
    embedded::demand_all(&spreads.embedded);
}

/// Every entry gives each of its numbers, and these besides where it looks at a
/// message.
fn demand_answers(spread: &Spread, more: &[u8]) {
    let demand = |entry, numbers: &[u8], least| {
        spread.demand(entry, &[numbers, more].concat(), least);
    };
    demand("check", &[0, 1, 2, 3, 4, 5], 100);
    demand("step", &[0, 1, 3, 4], 100);
    demand("read", &[0, 1, 2, 3, 4, 5, 6, 7, 8, 17], 50);
    demand("arrival", &[0, 1, 2, 3, 4, 5, 6, 7, 8, 14, 17], 30);
    demand("supporting", &[0, 1, 2, 3, 4, 5, 6, 7, 8, 15, 17], 30);
    let all = [0, 1, 2, 3, 4, 5, 6, 7, 8, 14, 15, 16, 17];
    demand("not supporting", &all, 30);
    let all = [0, 1, 2, 3, 4, 5, 6, 7, 8, 9, 10, 11, 12, 13, 17];
    demand("event", &all, 30);
    spread.demand("compose", &[0, 8, 12, 17], 50);
    spread.demand("other form", &[0, 1], 80);
    spread.demand("event form", &[0, 1], 80);
    for entry in ["group", "name", "appended", "reported", "reply owed"] {
        spread.demand(entry, &[0, 1], 100);
    }
    spread.demand("counter", &[0, 1, 2], 500);
    // Only levels up to Detail are recorded; any level may be unrecorded.
    spread.demand("recorded", &[0, 1, 2, 4, 5, 8], 100);
    spread.demand("unrecorded", &[0, 1, 2, 3, 4, 5, 6, 7, 8], 50);
    // Most activities are recorded, so that there are many appends and reports.
    assert!(spread.count("counter", 0) > spread.count("counter", 1));
    demand_names(spread);
}
