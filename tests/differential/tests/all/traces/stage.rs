//! A trace that events are given to, one after another.

use decoder::generate::Scenario;
use decoder::{Event, Sheet};
use differential::compare::events::{give, Buffers};
use differential::compare::numbers::Spare;
use differential::ffi::{Answer, Done};

/// A trace and its report buffer as the events so far have left them.
#[derive(Clone, Debug, PartialEq, Eq)]
pub struct Stage {
    pub buffer: Vec<u8>,
    pub length: usize,
    pub report: Vec<u8>,
}

impl Stage {
    /// A scenario before its first event.
    pub fn new(case: &Scenario) -> Stage {
        Stage {
            buffer: case.buffer.clone(),
            length: case.length,
            report: case.report.clone(),
        }
    }

    /// What the next event may write to.
    pub fn buffers(&mut self) -> Buffers<'_> {
        Buffers {
            message: &mut self.buffer,
            report: &mut self.report,
        }
    }

    pub fn library(&mut self, sheet: &Sheet, event: &Event, spare: Spare) -> (Answer, Done) {
        let length = self.length;
        let (answer, done) = give(&mut self.buffers(), length, sheet, event, spare);
        if !answer.is_refused() {
            self.length = done.message_length as usize;
        }
        (answer, done)
    }
}
