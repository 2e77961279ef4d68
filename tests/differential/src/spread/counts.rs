//! Counts for one form.

use super::Floor;
use crate::compare::events::name;
use crate::compare::expect;
use crate::compare::parts::FoundName;
use crate::ffi::Answer;
use decoder::{Applied, Event, EventRefusal};
use std::collections::BTreeMap;
use std::fmt;

/// Counts for each entry and refusal number; 0 stands for acceptance. For kinds
/// of cases the numbers are as their notes say.
#[derive(Default)]
pub struct Counts {
    counts: BTreeMap<&'static str, BTreeMap<u32, u64>>,
}

impl Counts {
    pub fn note(&mut self, entry: &'static str, number: u32) {
        let counts = self.counts.entry(entry).or_default();
        *counts.entry(number).or_default() += 1;
    }

    pub fn answer(&mut self, entry: &'static str, answer: Answer) {
        self.note(entry, answer.number());
    }

    /// An event's answer and what it did.
    pub fn event(&mut self, event: &Event, result: &Result<Applied, EventRefusal>) {
        self.answer(name(event), expect::event(result));
        match result {
            Ok(applied) => {
                self.note("appended", u32::from(applied.appended));
                self.note("reported", u32::from(applied.report_length > 0));
                self.note("counter", expect::done(result).counter as u32);
            }
            Err(refusal) => {
                if let Some(owed) = refusal.reply_owed {
                    self.note("reply owed", u32::from(owed));
                }
            }
        }
    }

    /// A named string: whether there is one, whether it is empty, and what was
    /// cut off at its end.
    pub fn name(&mut self, found: Option<FoundName>) {
        self.note("name", u32::from(found.is_none()));
        self.note(
            "empty name",
            u32::from(found.as_ref().is_none_or(|name| name.length != 0)),
        );
        if let Some(name) = found {
            self.note("cut off a name", name.cut);
        }
    }

    pub fn is_empty(&self) -> bool {
        self.counts.is_empty()
    }

    /// No entry that has floors gave another number than these have, and in a run
    /// that is so many times as long as usual each number came often enough; a
    /// shorter one is 0 times as long.
    pub fn demand(&self, form: &str, floors: &[Floor], times: u64) {
        for &(entry, numbers, least) in floors {
            let counts = self.counts.get(entry);
            let count = |number| counts.and_then(|x| x.get(number)).copied().unwrap_or(0);
            for number in numbers {
                let (count, due) = (count(number), least * times);
                assert!(
                    count >= due,
                    "{form}: {entry} gave {number} {count} times, not {due}"
                );
            }
            let known = |number| {
                let mut same = floors.iter().filter(|floor| floor.0 == entry);
                same.any(|floor| floor.1.contains(number))
            };
            let other = counts.and_then(|x| x.keys().find(|number| !known(number)));
            assert!(other.is_none(), "{form}: {entry} gave {other:?}");
        }
    }
}

impl fmt::Display for Counts {
    fn fmt(&self, to: &mut fmt::Formatter) -> fmt::Result {
        for (entry, counts) in &self.counts {
            let calls: u64 = counts.values().sum();
            write!(to, "  {entry}: {calls} calls;")?;
            for (number, count) in counts {
                write!(to, " {number}: {count}")?;
            }
            writeln!(to)?;
        }
        Ok(())
    }
}
