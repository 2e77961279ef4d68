//! A trace on which the same activity happens again and again.

use crate::ffi::{self, Answer, Done};
use crate::inputs::{self, Input, SHEET};
use decoder::{Activity, Applied, EventRefusal, Form, Layout, Level, Settings, Sheet};
use std::hint::black_box;

pub const GROUP: usize = 300;
const REPORT: usize = 36 + GROUP;

/// ParameterCount of a plain trace.
const COUNT: usize = 32;

/// The same of an embedded one, its StrucLength, and the Value of
/// RecordedActivities where it is composed.
const EMBEDDED_COUNT: usize = 64;
const STRUC_LENGTH: usize = 8;
const EMBEDDED_RECORDED: usize = 112;

/// What is written over by what an event did.
pub const NOTHING: Done = Done {
    counter: 0,
    appended: 0,
    report_length: 0,
    message_length: 0,
};

/// A trace in a buffer with room for one group, a report buffer, the group.
pub struct Stage {
    pub buffer: Vec<u8>,
    length: usize,
    layout: Layout,
    options: u32,
    /// The buffer's first bytes as they were.
    head: [u8; 68],
    pub report: Vec<u8>,
    group: Vec<u8>,
}

impl Stage {
    pub fn new(input: &Input) -> Stage {
        let (message, length, layout, options) = input.lent();
        let mut buffer = message.to_vec();
        buffer.resize(length + GROUP, 0);
        let mut head = [0; 68];
        head.copy_from_slice(&buffer[..68]);
        Stage {
            buffer,
            length,
            layout,
            options,
            head,
            report: vec![0; REPORT],
            group: inputs::activity().bytes,
        }
    }

    /// The trace as it was but for counters and user data: what stands behind
    /// its length is no part of it, and only numbers in its headers remember
    /// the group. To move the user data forward again would be measured, too. It
    /// isn't needed: the group and all but the end of the user data now stand
    /// where these stood, as many bytes, and nobody looks at what they are.
    pub fn again(&mut self) {
        match self.layout.form {
            Form::Plain => self.put_back(COUNT),
            Form::Embedded => {
                self.put_back(EMBEDDED_COUNT);
                self.put_back(STRUC_LENGTH);
            }
        }
    }

    fn put_back(&mut self, at: usize) {
        self.buffer[at..at + 4].copy_from_slice(&self.head[at..at + 4]);
    }

    /// Recorded, the group is appended and reported, else neither.
    pub fn library(&mut self, recorded: bool) -> (Answer, Done) {
        let event = ffi::Activity {
            // Reports asked for; with activity recording and trace-route messaging.
            options: self.options | if recorded { 1 | 2 | 4 } else { 1 },
            level: 2,
            group: &self.group,
        };
        let mut done = NOTHING;
        let (buffer, report) = (black_box(&mut self.buffer), &mut self.report);
        let answer = ffi::activity(buffer, self.length, &SHEET, &event, report, &mut done);
        (answer, done)
    }

    /// The same.
    pub fn decoder(&mut self, recorded: bool) -> Result<Applied, EventRefusal> {
        let event = Activity {
            level: Level::Low,
            group: &self.group,
            reports_asked: true,
            settings: Settings {
                activity_recording: recorded,
                trace_route_messaging: recorded,
                layout: self.layout,
            },
        };
        let (buffer, report) = (black_box(&mut self.buffer), &mut self.report);
        decoder::activity(buffer, self.length, &Sheet::new(SHEET), &event, report)
    }

    /// What an append writes to a composed embedded trace, and nothing else:
    /// neither trace nor group is judged, and nothing is reported.
    pub fn by_hand(&mut self) {
        let buffer = black_box(&mut self.buffer);
        let end = raise(buffer, STRUC_LENGTH, GROUP as u32) as usize;
        raise(buffer, EMBEDDED_COUNT, 1);
        raise(buffer, EMBEDDED_RECORDED, 1);
        buffer.copy_within(end..self.length, end + GROUP);
        buffer[end..end + GROUP].copy_from_slice(&self.group);
    }
}

/// Raises the number at `at`. Gives what it was.
fn raise(buffer: &mut [u8], at: usize, by: u32) -> u32 {
    let four = &mut buffer[at..at + 4];
    let number = u32::from_be_bytes([four[0], four[1], four[2], four[3]]);
    four.copy_from_slice(&(number + by).to_be_bytes());
    number
}
