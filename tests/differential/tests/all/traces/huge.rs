//! Sizes and lengths that 32 bits don't hold: where a function took only these
//! bits of one, it would see something short and sound.

use super::sample::{composed, FORMS, USER_DATA, VALUES};
use decoder::generate::Piece;
use decoder::sample::MADE_UP;
use decoder::{Embedding, Form, Layout, Sheet, Values};
use differential::compare::compose::{compare_compose, Draft};
use differential::compare::fill;
use differential::compare::given::Given;
use differential::compare::numbers::Spare;
use differential::compare::parts::compare_group;
use differential::compare::structures::{self, compare_step};
use differential::compare::text::Text;
use differential::compare::traces::{compare_decisions, compare_read};
use differential::ffi::{self, Activity, Answer, Around};
use differential::guard::Huge;

/// The first number that 32 bits don't hold.
const WRAP: usize = 1 << 32;

/// Accumulates in the message, so that an activity is appended.
fn trace(layout: Layout) -> Vec<u8> {
    let mut values = VALUES;
    values[5] = 0x10004;
    composed(layout, values, USER_DATA)
}

#[test]
fn messages() {
    let (mut text, sheet) = (Text::new(), Sheet::new(MADE_UP));
    for layout in FORMS {
        let message = trace(layout);
        let size = WRAP + 1000;
        let buffer = Huge::new(&message, size);
        let short = message.len();
        for length in [
            short,
            65_537,
            WRAP,
            WRAP + short,
            size,
            size + 1,
            usize::MAX,
        ] {
            let given = Given {
                buffer: &buffer,
                length,
                ..Given::whole(&[], layout)
            };
            let wanted = if length == short { 0 } else { 1 };
            let checked = structures::compare(given, &mut text);
            let decided = compare_decisions(given, &sheet);
            for (entry, answer) in checked.into_iter().chain(decided) {
                assert_eq!(answer.number(), wanted, "{entry}, length {length}");
            }
            assert_eq!(compare_read(given, &sheet).number(), wanted);
            compare_group(given, &sheet, WRAP);
            // Of a place, too: a structure stands at 100.
            assert_eq!(compare_step(given, 100, 1).number(), wanted);
            assert!(compare_step(given, WRAP + 100, 1).is_refused());
        }
    }
}

#[test]
fn user_data() {
    for layout in FORMS {
        for size in [WRAP - 212, WRAP, WRAP + 5] {
            let user_data = Huge::new(&[], size);
            let draft = Draft {
                layout,
                sheet: Sheet::new(MADE_UP),
                values: Values::from_array(VALUES),
                embedding: Embedding::NONE,
                user_data: &user_data,
                spare: Spare::NONE,
            };
            // A plain message has none.
            let wanted = match layout.form {
                Form::Plain => Answer::given(180),
                Form::Embedded => Answer::refused(12, 0),
            };
            assert_eq!(compare_compose(&draft, &mut [7; 300]), wanted);
        }
    }
}

#[test]
fn buffers() {
    let group = Piece::group(8005, &[]).bytes;
    for layout in FORMS {
        let message = trace(layout);
        let length = message.len();
        let (options, around) = (Spare::NONE.reading(layout), Around::NOTHING);
        // Of these sizes 32 bits hold what is too short.
        let mut buffer = Huge::new(&message, WRAP + length);
        let mut report = Huge::new(&[], WRAP + 10);
        let mut give = |buffer: &mut [u8], group: &[u8]| {
            let event = Activity {
                options: 7 | options,
                level: 2,
                group,
            };
            let (answer, _) = fill::between(fill::DONE, |done| {
                ffi::activity(buffer, length, &MADE_UP, &event, &mut report, done)
            });
            answer
        };
        let long = Huge::new(&group, WRAP + group.len());
        assert_eq!(give(&mut buffer, &long), Answer::refused(9, 0));
        let appended = Answer::given(length as u64 + 16);
        assert_eq!(give(&mut buffer, &group), appended);
        let mut small = Huge::new(&[], WRAP + 10);
        let answer = ffi::compose(&MADE_UP, &VALUES, options, &around, &mut small);
        assert!(!answer.is_refused());
    }
}
