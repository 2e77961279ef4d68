//! The order of all refusals in the embedded form: a sound trace with an
//! activity, and every fault alone, with each one after it, and with all of
//! those.

use crate::helpers::*;
use decoder::*;

/// What an activity needs.
#[derive(Clone)]
struct Case {
    buffer: Vec<u8>,
    length: usize,
    sheet: Sheet,
    group: Vec<u8>,
    report: Vec<u8>,
}

impl Case {
    /// A trace of 217 bytes, with just as much room as the activity needs.
    fn sound() -> Case {
        let mut buffer = embedded(&composed(&accumulating()), b"user!");
        buffer.extend([0xEE; 16]);
        Case {
            buffer,
            length: 217,
            sheet: sheet(),
            group: empty_group(),
            report: vec![0xDD; 52],
        }
    }

    /// More bytes at the composed part's end, which no count speaks of.
    fn more(&mut self, bytes: &[u8]) {
        self.buffer.splice(212..212, bytes.iter().copied());
        self.length += bytes.len();
        let end = get(&self.buffer, 8) + bytes.len() as u32;
        put(&mut self.buffer, 8, end);
    }

    /// Puts faults in, the last one first: lengths are to be spoilt last.
    fn with(faults: &[Fault]) -> Case {
        let mut case = Case::sound();
        for (.., spoil) in faults.iter().rev() {
            spoil(&mut case);
        }
        case
    }

    fn apply(&mut self) -> Result<Applied, EventRefusal> {
        let settings = Settings {
            layout: EMBEDDED,
            ..BUSY
        };
        let event = Activity {
            settings,
            ..busy(&self.group)
        };
        activity(
            &mut self.buffer,
            self.length,
            &self.sheet,
            &event,
            &mut self.report,
        )
    }
}

/// A refusal with its place, and a fault that gives it.
type Fault = (u8, usize, fn(&mut Case));

/// In the order of the refusals. Attributes stand at 84 and every 16 bytes on,
/// their values 12 bytes behind that.
const FAULTS: [Fault; 15] = [
    (17, 0, |case| case.sheet = Sheet::new([0; 8])),
    (1, 0, |case| case.length = 67),
    (18, 0, |case| case.buffer[3] = 0),
    (2, 0, |case| put(&mut case.buffer, 40, 0)),
    (3, 196, |case| put(&mut case.buffer, 200, 20)),
    (4, 212 + 8 * 16, |case| {
        case.more(&nested(9, &[]).bytes);
        put(&mut case.buffer, 64, 2);
    }),
    (5, 212, |case| case.more(&[1; 4])),
    (6, 0, |case| put(&mut case.buffer, 32, 7)),
    (7, 0, |case| put(&mut case.buffer, 76, 8004)),
    (8, 0, |case| put(&mut case.buffer, 96, 5)),
    (9, 0, |case| case.group = vec![0; 16]),
    // More is recorded than the limit allows; the counter to rise is full.
    (10, 0, |case| {
        put(&mut case.buffer, 112, 6);
        put(&mut case.buffer, 160, 1);
    }),
    (11, 0, |case| put(&mut case.buffer, 112, COUNTER_MAX)),
    (12, 0, |case| case.buffer.truncate(232)),
    (13, 0, |case| case.report.truncate(51)),
];

/// The event is refused with this, and changes nothing.
fn refused(mut case: Case, number: u8, place: usize) {
    let before = case.clone();
    let refused = case.apply().unwrap_err();
    assert_eq!((refused.number, refused.place), (number, place));
    assert!(before.buffer == case.buffer && before.report == case.report);
}

#[test]
fn a_sound_case_is_accepted() {
    let mut case = Case::sound();
    let applied = Applied {
        counter: Counter::Recorded,
        appended: true,
        report_length: 52,
        message_length: 233,
    };
    assert_eq!(case.apply(), Ok(applied));
    assert_eq!(case.buffer[212..], [&empty_group()[..], b"user!"].concat());
    assert_eq!(case.report, report_of(&empty_group()));
}

#[test]
fn every_fault_comes_before_those_after_it() {
    for (index, fault) in FAULTS.into_iter().enumerate() {
        let (number, place, _) = fault;
        refused(Case::with(&[fault]), number, place);
        refused(Case::with(&FAULTS[index..]), number, place);
        for later in &FAULTS[index + 1..] {
            refused(Case::with(&[fault, *later]), number, place);
        }
    }
}

/// What Read and the decisions say of a case: one refusal, all the same.
fn looked_at(case: &Case) -> Refusal {
    let (buffer, length, sheet) = (&case.buffer, case.length, &case.sheet);
    let refusal = read(buffer, length, EMBEDDED, sheet).unwrap_err();
    for supporting in [false, true] {
        let answer = forwarding(buffer, length, EMBEDDED, sheet, supporting);
        assert_eq!(answer, Err(refusal));
    }
    assert_eq!(arrival(buffer, length, EMBEDDED, sheet), Err(refusal));
    refusal
}

#[test]
fn read_and_decisions_go_by_the_same_order() {
    for (index, fault) in FAULTS.into_iter().enumerate().take(10) {
        let (number, place, _) = fault;
        for later in &FAULTS[index..] {
            let answer = looked_at(&Case::with(&[fault, *later]));
            assert_eq!(answer, refusal(number, place));
        }
    }
    let found = locate(&Case::sound().buffer, 217, EMBEDDED, &sheet()).unwrap();
    assert_eq!(found.places, [84, 100, 116, 132, 148, 164, 180, 196]);
    assert_eq!(found.value_place(4), Some(160));
}

#[test]
fn checks_and_steps_go_by_the_same_order() {
    for (index, fault) in FAULTS.into_iter().enumerate().take(7).skip(1) {
        for later in &FAULTS[index..] {
            let case = Case::with(&[fault, *later]);
            let answer = check(&case.buffer, case.length, EMBEDDED);
            assert_eq!(answer, Err(refusal(fault.0, fault.1)));
        }
    }
    // Steps know 1, 18, 3 and 4; all other faults play no part.
    let step = |faults: &[Fault], place, depth| {
        let case = Case::with(faults);
        step(&case.buffer, case.length, EMBEDDED, place, depth)
    };
    assert_eq!(step(&FAULTS[1..], 68, 9), Err(refusal(1, 0)));
    assert_eq!(step(&FAULTS[2..], 68, 9), Err(refusal(18, 0)));
    assert_eq!(step(&FAULTS[3..], 68, 9), Err(refusal(4, 68)));
    assert_eq!(step(&FAULTS[3..], 196, 9), Err(refusal(3, 196)));
    assert!(step(&FAULTS[3..], 68, 8).is_ok());
}
