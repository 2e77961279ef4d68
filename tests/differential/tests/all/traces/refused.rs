//! Every refusal, 1 to 18, can be had through the library in both forms, but for
//! 18, which a plain message has not. Nothing that is lent changes.

use super::sample::{composed, FORMS, USER_DATA, VALUES};
use decoder::generate::Piece;
use decoder::sample::MADE_UP;
use decoder::{Form, Layout};
use differential::compare::fill;
use differential::compare::numbers::Spare;
use differential::ffi::{self, Activity, Answer, Around};
use std::hint::black_box;

/// All that an activity is lent.
#[derive(Clone, Debug, PartialEq, Eq)]
struct Case {
    layout: Layout,
    buffer: Vec<u8>,
    length: usize,
    sheet: [u32; 8],
    group: Vec<u8>,
    report: Vec<u8>,
}

impl Case {
    /// A trace with just as much room as the activity needs.
    fn sound(layout: Layout) -> Case {
        let mut values = VALUES;
        values[5] = 0x10004;
        let mut buffer = composed(layout, values, USER_DATA);
        let length = buffer.len();
        buffer.extend([0xEE; 16]);
        Case {
            layout,
            buffer,
            length,
            sheet: MADE_UP,
            group: Piece::group(8005, &[]).bytes,
            report: vec![0xDD; 52],
        }
    }

    /// Where the PCF header starts.
    fn start(&self) -> usize {
        match self.layout.form {
            Form::Plain => 0,
            Form::Embedded => 32,
        }
    }

    /// Writes a number, counted from the PCF header on.
    fn put(&mut self, place: usize, number: u32) {
        let place = self.start() + place;
        self.buffer[place..place + 4].copy_from_slice(&number.to_be_bytes());
    }

    /// More bytes at the part's end, which no count speaks of.
    fn more(&mut self, bytes: &[u8]) {
        let place = self.start() + 180;
        self.buffer.splice(place..place, bytes.iter().copied());
        self.length += bytes.len();
        if self.layout.form == Form::Embedded {
            let end = (212 + bytes.len()) as u32;
            self.buffer[8..12].copy_from_slice(&end.to_be_bytes());
        }
    }

    /// An activity that is appended and reported.
    fn give(&mut self) -> Answer {
        let event = Activity {
            options: 7 | Spare::NONE.reading(self.layout),
            level: 2,
            group: &self.group,
        };
        let (buffer, length, report) = (&mut self.buffer, self.length, &mut self.report);
        let (answer, done) = fill::between(fill::DONE, |done| {
            ffi::activity(buffer, length, &self.sheet, &event, report, done)
        });
        assert!(!answer.is_refused() || done == fill::DONE);
        answer
    }
}

/// A refusal's number, its place from the PCF header on where it has one, and
/// what gives it.
type Fault = (u8, Option<u64>, fn(&mut Case));

/// Attributes stand at 52 of the part and every 16 bytes on, their values 12
/// bytes behind that.
const FAULTS: [Fault; 15] = [
    (17, None, |case| case.sheet[7] = 0),
    (1, None, |case| case.length = case.start() + 35),
    (18, None, |case| case.buffer[3] = 0),
    (2, None, |case| case.put(8, 0)),
    (3, Some(164), |case| case.put(168, 20)),
    (4, Some(180 + 8 * 16), |case| {
        let deep = (1..9).fold(Piece::group(1, &[]), |x, _| Piece::group(1, &[x]));
        case.more(&deep.bytes);
        case.put(32, 2);
    }),
    (5, Some(180), |case| case.more(&[1; 4])),
    (6, None, |case| case.put(0, 7)),
    (7, None, |case| case.put(44, 8004)),
    (8, None, |case| case.put(64, 5)),
    (9, None, |case| case.group = vec![0; 16]),
    // More is recorded than the limit allows; the counter to rise is full.
    (10, None, |case| {
        case.put(80, 6);
        case.put(128, 1);
    }),
    (11, None, |case| case.put(80, i32::MAX as u32)),
    (12, None, |case| case.buffer.truncate(case.length + 15)),
    (13, None, |case| case.report.truncate(51)),
];

#[test]
fn events() {
    for layout in FORMS {
        let sound = Case::sound(layout);
        let length = sound.length as u64 + 16;
        assert_eq!(sound.clone().give(), Answer::given(length));
        for (number, place, spoil) in FAULTS {
            let mut case = sound.clone();
            if number == 18 && layout.form == Form::Plain {
                continue;
            }
            spoil(&mut case);
            let before = case.clone();
            let place = place.map_or(0, |place| place + case.start() as u64);
            assert_eq!(case.give(), Answer::refused(number, place), "{layout:?}");
            assert!(black_box(&case) == &before, "{number} changed something");
        }
    }
}

#[test]
fn decisions() {
    for layout in FORMS {
        let options = Spare::NONE.forwarding(layout, false);
        for (number, forward, deliver) in [
            (14, 0x100, 0x8000_1000),
            (15, 0x8000_0100, 0x2000),
            (16, 0x200, 0x2000),
        ] {
            let mut values = VALUES;
            [values[6], values[7]] = [forward, deliver];
            let message = composed(layout, values, USER_DATA);
            let answer = ffi::forward(&message, message.len(), &MADE_UP, options);
            assert_eq!(answer, Answer::refused(number, 0));
        }
    }
}

#[test]
fn composing() {
    for (layout, length) in FORMS.into_iter().zip([180, 217]) {
        let options = Spare::NONE.reading(layout);
        let around = Around {
            user: USER_DATA,
            ..Around::NOTHING
        };
        let (mut sheet, mut values) = (MADE_UP, VALUES);
        let mut buffer = vec![7; length];
        let mut compose = |sheet: &[u32; 8], values: &[u32; 8], size: usize| {
            ffi::compose(sheet, values, options, &around, &mut buffer[..size])
        };
        sheet[1] = sheet[0];
        assert_eq!(compose(&sheet, &values, 0), Answer::refused(17, 0));
        values[0] = 3;
        assert_eq!(compose(&MADE_UP, &values, 0), Answer::refused(8, 0));
        let short = compose(&MADE_UP, &VALUES, length - 1);
        assert_eq!(short, Answer::refused(12, 0));
        assert_eq!(buffer, vec![7; length]);
    }
}
